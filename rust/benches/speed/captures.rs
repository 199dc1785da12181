//! What the readers are measured on. Nothing is left to chance: every run makes the same bytes.

use crate::sums;
use blossomaxle::Format;

/// Numbers that look like chance, by Marsaglia's xorshift.
pub struct Xorshift(u64);

impl Xorshift {
    pub fn fresh() -> Xorshift {
        Xorshift(0x9E37_79B9_7F4A_7C15)
    }

    fn next(&mut self) -> u64 {
        self.0 ^= self.0 << 13;
        self.0 ^= self.0 >> 7;
        self.0 ^= self.0 << 17;
        self.0
    }

    pub fn below(&mut self, limit: usize) -> usize {
        (self.next() >> 32) as usize % limit
    }

    pub fn byte(&mut self) -> u8 {
        self.next() as u8
    }

    pub fn bytes(&mut self, len: usize) -> Vec<u8> {
        (0..len).map(|_| self.byte()).collect()
    }
}

/// Whole good frames, at most so many bytes.
pub fn clean(format: Format, size: usize) -> Vec<u8> {
    frames(format, size, |_, _| ())
}

/// As clean, but one frame of ten has a byte changed, dropped or inserted.
pub fn damaged(format: Format, size: usize) -> Vec<u8> {
    frames(format, size, |frame, rng| {
        if rng.below(10) == 0 {
            damage(frame, rng);
        }
    })
}

/// Changes, drops or inserts a byte.
pub fn damage(frame: &mut Vec<u8>, rng: &mut Xorshift) {
    let at = rng.below(frame.len());
    match rng.below(3) {
        0 => frame[at] ^= 1 + rng.below(255) as u8,
        1 => drop(frame.remove(at)),
        _ => frame.insert(at, rng.byte()),
    }
}

/// Every byte as likely as every other.
pub fn noise(size: usize) -> Vec<u8> {
    Xorshift::fresh().bytes(size)
}

/// A line that gives a reader much work and no frame, by repeating something.
pub struct Worst {
    pub unit: &'static str,
    pub line: Vec<u8>,
}

/// Some such lines: starts that stand near to each other, most with a whole shape whose checksum is wrong. `05 02 FA`
/// gives more of these than a header of its own for each, since the FA's complement is the next start.
pub fn worst(format: Format, size: usize) -> Vec<Worst> {
    let unended = [b"$".as_slice(), &[b'A'; 76]].concat();
    let wrong = [b"$".as_slice(), &[b'A'; 76], b"*FF\r\n"].concat();
    let units: Vec<(&'static str, &[u8])> = match format {
        Format::Mgl => vec![("05 02 00 FF", b"\x05\x02\x00\xFF"), ("05 02 FA", b"\x05\x02\xFA"), ("05", b"\x05")],
        Format::OnFlight => vec![("42 46 01 98", b"BF\x01\x98"), ("42", b"B")],
        Format::Nmea => vec![
            ("$", b"$"),
            ("$A", b"$A"),
            ("$A*00 CR LF", b"$A*00\r\n"),
            ("$ and 76 A", &unended),
            ("wrong checksum", &wrong),
        ],
    };
    let repeated = |bytes: &[u8]| bytes.iter().copied().cycle().take(size).collect();
    units.into_iter().map(|(unit, bytes)| Worst { unit, line: repeated(bytes) }).collect()
}

fn frames(format: Format, size: usize, mut change: impl FnMut(&mut Vec<u8>, &mut Xorshift)) -> Vec<u8> {
    let mut rng = Xorshift::fresh();
    let mut line = Vec::with_capacity(size);
    loop {
        let mut frame = match format {
            Format::Mgl => mgl(&mut rng),
            Format::OnFlight => onflight(&mut rng),
            Format::Nmea => nmea(&mut rng),
        };
        change(&mut frame, &mut rng);
        if line.len() + frame.len() > size {
            return line;
        }
        line.extend(frame);
    }
}

/// The messages of a display by how often they come: type, and the least and the most of the length byte.
const MESSAGES: [(u8, usize, usize); 10] = [
    (1, 24, 24),
    (1, 24, 24),
    (2, 36, 36),
    (2, 36, 36),
    (3, 16, 28),
    (3, 16, 28),
    (3, 16, 28),
    (6, 28, 256),
    (10, 44, 92),
    (11, 20, 60),
];

/// A frame of 36 to 276 bytes, whose checksum stands at a multiple of 4.
fn mgl(rng: &mut Xorshift) -> Vec<u8> {
    let (kind, least, most) = MESSAGES[rng.below(MESSAGES.len())];
    let length = least + 4 * rng.below((most - least) / 4 + 1);
    let mut covered = vec![kind, 1, rng.byte(), 1];
    covered.extend(rng.bytes(length + 8));
    framed(Format::Mgl, &covered)
}

fn onflight(rng: &mut Xorshift) -> Vec<u8> {
    framed(Format::OnFlight, &rng.bytes(152))
}

fn nmea(rng: &mut Xorshift) -> Vec<u8> {
    framed(Format::Nmea, sentence(rng).as_bytes())
}

/// The frame of a content with the right checksum: an MGL frame from the type to the last body byte, an OnFlight
/// payload, or the body of a sentence.
pub fn framed(format: Format, content: &[u8]) -> Vec<u8> {
    match format {
        Format::Mgl => {
            let length = (content.len() - 12) as u8;
            [&[5, 2, length, 255 - length], content, &sums::crc32_by_8(content).to_le_bytes()].concat()
        }
        Format::OnFlight => {
            let frame = [b"BF\x01\x98", content].concat();
            [&frame[..], &sums::fletcher_each(&frame)].concat()
        }
        Format::Nmea => [b"$", content, format!("*{:02X}\r\n", sums::xor(content)).as_bytes()].concat(),
    }
}

/// The body of a position, or of a sentence of a glider's sensor.
fn sentence(rng: &mut Xorshift) -> String {
    let mut n = |from: usize, to: usize| from + rng.below(to - from + 1);
    match n(0, 7) {
        0 | 1 => format!(
            "GPRMC,{:02}{:02}{:02}.{:02},A,48{:02}.{:05},N,010{:02}.{:05},E,{:03}.{},{:03}.{},170623,,,A",
            n(0, 23),
            n(0, 59),
            n(0, 59),
            n(0, 99),
            n(0, 59),
            n(0, 99_999),
            n(0, 59),
            n(0, 99_999),
            n(20, 140),
            n(0, 9),
            n(0, 359),
            n(0, 9)
        ),
        2 => format!("PLARW,{},{},I,A", n(0, 359), n(0, 60)),
        3 => format!("PLARA,{}.{},{}.{},{}.{}", n(0, 60), n(0, 9), n(0, 30), n(0, 9), n(0, 359), n(0, 9)),
        4 => format!("PLARD,{}.{:02},M", n(400, 1050), n(0, 99)),
        5 => format!("PLARB,{}.{:02}", n(10, 14), n(0, 99)),
        6 => format!("PLARV,{}.{:02},{}.{:02},{},{}", n(0, 9), n(0, 99), n(0, 9), n(0, 99), n(300, 4000), n(60, 250)),
        _ => format!("PLARS,L,QNH,{}.{}", n(950, 1050), n(0, 9)),
    }
}
