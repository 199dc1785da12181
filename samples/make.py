#!/usr/bin/env python3
"""Makes the sample bench files, NAME.bench, and beside each the sheets expected, NAME.sheet.

    samples/make.py            writes them
    samples/make.py --check    says which differ from what is there, and fails if one does

The sheets come from the plain reading below, which was written from docs/FORMATS.md and knows nothing of the Rattle code.
"""
import pathlib
import struct
import sys
import zlib

HERE = pathlib.Path(__file__).resolve().parent
MGL, ONFLIGHT, NMEA = 1, 2, 3


# ---- frames

def mgl(kind, body, rate=1, count=0, version=1):
    covered = bytes([kind, rate, count, version]) + body
    length = (len(body) - 8) % 256
    return bytes([5, 2, length, 255 - length]) + covered + struct.pack("<I", zlib.crc32(covered))


def mgl_clock(day, month, year, hour, minute, second, count=0):
    return mgl(1, bytes(24) + bytes([hour, minute, second, day, month, year]) + bytes(2), count=count)


def mgl_gps(latitude, longitude, mode=3, count=0):
    numbers = struct.pack("<7iHHh", latitude, longitude, 1500, 1200, 3, -4, 0, 95, 1800, -25)
    return mgl(2, numbers + bytes([mode, 8, 11, 20, 30, 1, 0, 0, 0, 0]), count=count)


def mgl_fuel(levels, count=0):
    tanks = b"".join(struct.pack("<iBBH", level, 1, 1, 700 + level) for level in levels)
    return mgl(11, struct.pack("<i", len(levels)) + tanks, count=count)


def fletcher(data):
    plain = weighted = 0
    for byte in data:
        plain = (plain + byte) % 255
        weighted = (weighted + plain) % 255
    return bytes([plain, weighted])


def onflight(milliseconds, clock=(54, 3, 14, 9, 26, 53), fill=0):
    payload = bytearray([fill] * 152)
    payload[6:10] = struct.pack("<I", milliseconds)
    payload[10] = 125
    payload[36] = 3 + 8 * 9
    payload[37:43] = bytes(clock)
    covered = bytes([0x42, 0x46, 1, 152]) + bytes(payload)
    return covered + fletcher(covered)


def sentence(body):
    total = 0
    for byte in body:
        total ^= byte
    return b"$" + body + b"*%02X\r\n" % total


def rmc(time, date, latitude=b"5103.79034,N", longitude=b"01026.79034,E"):
    return sentence(b"GPRMC,%s,A,%s,%s,0.5,90.0,%s,,,A" % (time, latitude, longitude, date))


# ---- the plain reading of a line: where a frame begins, how long it is, and whether more bytes could still make one

def start_of(pattern, data):
    """Whether data agrees with the fixed bytes as far as it goes."""
    return all(a == b for a, b in zip(pattern, data))


def look_mgl(data):
    if not start_of(b"\x05\x02", data) or (len(data) > 3 and data[2] + data[3] != 255):
        return "no"
    if len(data) < 4:
        return "more"
    size = (data[2] or 256) + 20
    if len(data) < size:
        return "more"
    good = struct.unpack("<I", data[size - 4:size])[0] == zlib.crc32(data[4:size - 4])
    return size if good else "no"


def look_onflight(data):
    if not start_of(b"\x42\x46\x01\x98", data):
        return "no"
    if len(data) < 158:
        return "more"
    return 158 if fletcher(data[:156]) == data[156:158] else "no"


def look_nmea(data):
    if data[:1] != b"$":
        return "no"
    at = 1
    while at < len(data) and 0x20 <= data[at] <= 0x7E and data[at] not in b"$*":
        at += 1
        if at > 77:
            return "no"
    if at == len(data):
        return "more"
    tail = data[at:at + 5]
    hexadecimal = b"0123456789ABCDEF"
    permitted = (b"*", hexadecimal, hexadecimal, b"\r", b"\n")
    if at == 1 or not all(byte in some for byte, some in zip(tail, permitted)):
        return "no"
    if len(tail) < 5:
        return "more"
    return at + 5 if sentence(data[1:at]) == data[:at + 5] else "no"


LOOK = {MGL: look_mgl, ONFLIGHT: look_onflight, NMEA: look_nmea}
LONGEST = {MGL: 276, ONFLIGHT: 158, NMEA: 82}


def sheet(form, data):
    """The sheet of a capture: its closing reading, which skips a byte where bytes run out."""
    at = frames = framed = skipped = 0
    while at < len(data):
        found = LOOK[form](data[at:at + LONGEST[form]])
        if isinstance(found, int):
            frames, framed, at = frames + 1, framed + found, at + found
        else:
            skipped, at = skipped + 1, at + 1
    return "format %d\nframes %d\nframed %d\nskipped %d\npending 0\n" % (form, frames, framed, skipped)


# ---- bench files

def contents(entries):
    return bytes([len(entries)]) + b"".join(struct.pack("<BBI", form, port, size) for form, port, size in entries)


def bench(*captures):
    """A whole file of captures (format, port, bytes), and its sheets."""
    head = contents([(form, port, len(data)) for form, port, data in captures])
    return head + b"".join(data for _, _, data in captures), "".join(sheet(form, data) for form, _, data in captures)


def samples():
    example = b"x" + b"$" + sentence(b"PLARB,12.33")
    feed = mgl_clock(3, 7, 24, 8, 15, 30) + mgl_gps(9181234, -184512) + mgl_fuel([410, 395])
    log = b"".join(onflight(250 * i, fill=i) for i in range(4))
    line = rmc(b"092653.25", b"140324") + sentence(b"PLARB,12.33") + sentence(b"PLARS,L,MC,1.3")

    yield "document-01", bench((NMEA, 2, example))
    yield "document-01-marked", bench(
        (MGL, 0, bytes.fromhex("050201FF")), (MGL, 0, bytes.fromhex("050502")), (ONFLIGHT, 0, bytes.fromhex("424246")),
        (NMEA, 0, b"$*00\r\n"), (NMEA, 0, sentence(b"PLARB,12.33")))
    yield "nothing-captured", bench((NMEA, 2, b""))
    yield "mgl", bench((MGL, 1, feed))
    yield "onflight", bench((ONFLIGHT, 4, log))
    yield "nmea", bench((NMEA, 2, line))

    # GPS heard in March, fuel in May, and a display whose clock stands at 3 July (day 3, month 7; not 7 March)
    yield "unit-1147", bench(
        (NMEA, 1, b"".join(rmc(b"0926%02d.00" % s, b"140324") for s in range(20))),
        (MGL, 2, b"".join(mgl_clock(22, 5, 24, 16, 40, s) + mgl_fuel([520 - s, 505], s) for s in range(10))),
        (MGL, 3, b"\x00\xFF" + mgl_clock(3, 7, 24, 8, 15, 30) + mgl_gps(9181234, -184512)[:30]))

    # a changed byte, a doubled start, a frame inside a start that claims 276 bytes, and a cut tail
    changed = bytearray(mgl_gps(1, 2))
    changed[20] ^= 0x10
    yield "mgl-damaged", bench((MGL, 1, b"noise" + bytes(changed) + b"\x05" + feed + bytes.fromhex("050200FF01010001") + mgl_fuel([7]) + feed[:50]))
    # a sum of modulo 256, FF stored for 0, another version, and a cut tail
    wrong = onflight(1)[:156] + bytes([sum(onflight(1)[:156]) % 256, 0])
    zero = bytearray(onflight(2)[:156])
    zero[155] = -sum(zero[:155]) % 255
    stored = bytes(zero) + b"\xFF" + fletcher(zero)[1:]
    yield "onflight-damaged", bench((ONFLIGHT, 4, b"B" + log + wrong + stored + b"BF\x02\x98" + log[4:158] + log[:100]))
    # lower-case digits, a bare LF, no checksum, a forbidden byte, a body of 77 bytes, a start in a body, and a cut tail
    long_body = b"$" + b"A" * 77 + sentence(b"A" * 77)[-5:]
    yield "nmea-damaged", bench((NMEA, 2, b"$PLARB,12.33*4c\r\n" + sentence(b"X")[:-2] + b"\n" + b"$GPRMC,1\r\n" + b"$A\x07B*00\r\n"
                                 + long_body + b"$GPRMC,08" + line + sentence(b"A" * 76) + b"$PLARS,L"))

    # sixteen captures, of which some are longer than a piece and one has no bytes
    noise = bytes((i * i + 7 * i) % 251 for i in range(9000))
    many = [(MGL, i, feed * (30 * i)) for i in range(5)] + [(ONFLIGHT, i, log * (9 * i) + noise[:i]) for i in range(5)]
    many += [(NMEA, i, noise[:700 * i] + line * (40 * i)) for i in range(6)]
    yield "sixteen", bench(*many)

    refused = "refused 10\n"
    good, _ = bench((NMEA, 2, example), (MGL, 1, feed))
    yield "broken-no-bytes", (b"", refused)
    yield "broken-no-entries", (bytes([0]), refused)
    yield "broken-17-entries", (bench(*[(NMEA, 0, b"")] * 17)[0], refused)
    yield "broken-contents-cut", (good[:12], refused)
    yield "broken-format-0", (contents([(0, 1, 0)]), refused)
    yield "broken-format-4", (contents([(NMEA, 1, 0), (4, 1, 0)]), refused)
    yield "broken-ends-early", (good[:-1], refused)
    yield "broken-ends-at-a-body", (good[:13], refused)
    yield "broken-goes-on", (good + b"\n", refused)
    yield "broken-huge-lengths", (contents([(MGL, 1, 0xFFFFFFFF)] * 16) + feed, refused)
    yield "broken-text", (b"GPS heard in March\r\n", refused)


def main():
    differ = []
    for name, (data, text) in samples():
        for path, wanted in ((HERE / (name + ".bench"), data), (HERE / (name + ".sheet"), text.encode())):
            if "--check" not in sys.argv:
                path.write_bytes(wanted)
            elif not path.exists() or path.read_bytes() != wanted:
                differ.append(path.name)
    if differ:
        sys.exit("samples: not what make.py makes: " + " ".join(differ))


main()
