//! Damaged stretches of a line: what goes wrong on a wire, and what would mislead a careless reader.

use super::prng::Prng;
use super::{crumbs, frame, onflight};
use crate::oracle::checksum::fletcher;
use crate::oracle::frame::nmea as sentence;
use crate::oracle::{MGL, NMEA, ONFLIGHT};

/// A damaged stretch of a line of a format.
pub fn stretch(rng: &mut Prng, format: u32) -> Vec<u8> {
    match rng.below(11) {
        0 => flipped(rng, format),
        1 => cut(rng, format),
        2 => byte_lost(rng, format),
        3 => byte_more(rng, format),
        4 => start_doubled(rng, format),
        5 => inside_longer(rng, format),
        6 => storm(rng, format),
        7 => wrong_shape(rng, format),
        8 => wrong_ending(rng, format),
        9 => noise(rng),
        _ => short_crumbs(rng, format),
    }
}

/// A frame with one to three bits flipped.
fn flipped(rng: &mut Prng, format: u32) -> Vec<u8> {
    let mut bytes = frame(rng, format);
    for _ in 0..rng.range(1, 3) {
        let at = rng.length(bytes.len());
        bytes[at] ^= 1 << rng.below(8);
    }
    bytes
}

/// A frame that ends too early.
fn cut(rng: &mut Prng, format: u32) -> Vec<u8> {
    let mut bytes = frame(rng, format);
    bytes.truncate(rng.length(bytes.len()));
    bytes
}

fn byte_lost(rng: &mut Prng, format: u32) -> Vec<u8> {
    let mut bytes = frame(rng, format);
    bytes.remove(rng.length(bytes.len()));
    bytes
}

fn byte_more(rng: &mut Prng, format: u32) -> Vec<u8> {
    let mut bytes = frame(rng, format);
    bytes.insert(rng.length(bytes.len()), rng.byte());
    bytes
}

/// A good frame after a start of one to four bytes of it.
fn start_doubled(rng: &mut Prng, format: u32) -> Vec<u8> {
    let bytes = frame(rng, format);
    let start = rng.range(1, 4) as usize;
    [&bytes[..start], &bytes].concat()
}

/// The start of a long frame, and good frames inside it.
fn inside_longer(rng: &mut Prng, format: u32) -> Vec<u8> {
    let mut bytes = long_start(rng, format);
    for _ in 0..rng.range(1, 3) {
        bytes.extend(frame(rng, format));
    }
    bytes
}

/// The start of a frame that wants many bytes, MGL's L = 0 among them.
fn long_start(rng: &mut Prng, format: u32) -> Vec<u8> {
    match format {
        MGL => {
            // FA is followed by its complement 05, which may be a start byte itself.
            let l = rng.pick(&[0x00, 0x00, 0x01, 0x80, 0xFA, 0xFE, 0xFF]);
            let end = if l == 0xFA { vec![] } else { vec![255 - l] };
            [vec![0x05, 0x02, l], end].concat()
        }
        ONFLIGHT => vec![0x42, 0x46, 0x01, 0x98],
        _ => {
            let size = rng.pick(&[1, 10, 75, 76, 77]);
            [&b"$"[..], &vec![b'.'; size]].concat()
        }
    }
}

/// Start bytes again and again.
fn storm(rng: &mut Prng, format: u32) -> Vec<u8> {
    let unit = match rng.below(3) {
        0 => long_start(rng, format),
        1 => long_start(rng, format)[..1].to_vec(),
        _ => crumbs(rng, format, 3),
    };
    unit.repeat(rng.range(1, 60) as usize)
}

/// What would be a frame if the shape were a little wider, checksum and all.
fn wrong_shape(rng: &mut Prng, format: u32) -> Vec<u8> {
    let mut bytes = frame(rng, format);
    let by = rng.pick(&[1, 2, 255]);
    match format {
        MGL if rng.one_in(2) => {
            bytes[2] = bytes[2].wrapping_add(by);
            bytes[3] = bytes[3].wrapping_sub(by);
        }
        MGL => {
            let at = rng.pick(&[0, 1, 3]);
            bytes[at] = bytes[at].wrapping_add(by);
        }
        ONFLIGHT => {
            let at = rng.length(4);
            bytes[at] = bytes[at].wrapping_add(by);
            let checksum = fletcher(&bytes[..156]);
            bytes[156..].copy_from_slice(&checksum);
        }
        _ => bytes = wrong_body(rng, &bytes[1..bytes.len() - 5]),
    }
    bytes
}

/// A sentence with a right checksum whose body is empty, too long, or has a byte that is not permitted.
fn wrong_body(rng: &mut Prng, body: &[u8]) -> Vec<u8> {
    let mut body = body.to_vec();
    match rng.below(4) {
        0 => body.clear(),
        1 => body.resize(rng.pick(&[75, 76, 77, 78]), b'~'),
        _ => {
            let at = rng.length(body.len());
            body[at] = rng.pick(b"\x1F\x7F\x80\xFF$*\r\n\x00");
        }
    }
    sentence(&body)
}

/// A frame with a checksum or an end that is nearly right: stored FF, lower-case digits, a bare LF, other byte order.
fn wrong_ending(rng: &mut Prng, format: u32) -> Vec<u8> {
    if format == ONFLIGHT && rng.one_in(2) {
        return onflight::stored_ff(rng);
    }
    let mut bytes = frame(rng, format);
    let end = bytes.len();
    match (format, rng.below(3)) {
        (NMEA, 0) => bytes[end - 4..end - 2].make_ascii_lowercase(),
        (NMEA, 1) => drop(bytes.remove(end - 2)),
        (NMEA, _) => bytes.swap(end - 4, end - 3),
        (MGL, 0) => bytes[end - 4..].reverse(),
        (MGL, 1) => bytes[end - 4..].iter_mut().for_each(|byte| *byte = !*byte),
        (ONFLIGHT, 0) => bytes.swap(end - 2, end - 1),
        _ => bytes[end - 1] ^= 0xFF,
    }
    bytes
}

fn noise(rng: &mut Prng) -> Vec<u8> {
    let size = rng.length(60);
    rng.bytes(size)
}

fn short_crumbs(rng: &mut Prng, format: u32) -> Vec<u8> {
    let size = rng.length(24);
    crumbs(rng, format, size)
}
