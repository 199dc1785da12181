//! What stands at a start byte, by the rules of each format; hand-written.

use crate::sums;
use blossomaxle::Format;

/// What the bytes from a place on begin with.
pub enum Look {
    /// A frame, of so many bytes.
    Frame(usize),
    /// A start of a frame, and no end.
    More,
    /// Nothing.
    No,
}

/// The rules of a format.
pub trait Rules {
    const FORMAT: Format;
    const START: u8;
    const LONGEST: usize;

    /// Looks at bytes of which the first is the start byte.
    fn look(bytes: &[u8]) -> Look;
}

pub struct Mgl;
pub struct OnFlight;
pub struct Nmea;

impl Rules for Mgl {
    const FORMAT: Format = Format::Mgl;
    const START: u8 = 0x05;
    const LONGEST: usize = 276;

    fn look(bytes: &[u8]) -> Look {
        let [_, 2, length, complement, ..] = *bytes else {
            return if bytes.len() < 4 && *bytes.get(1).unwrap_or(&2) == 2 { Look::More } else { Look::No };
        };
        if length ^ complement != 0xFF {
            return Look::No;
        }
        let len = if length == 0 { 256 } else { usize::from(length) } + 20;
        let Some(frame) = bytes.get(..len) else { return Look::More };
        let (covered, stored) = frame[4..].split_at(len - 8);
        judge(stored == sums::crc32_by_8(covered).to_le_bytes(), len)
    }
}

impl Rules for OnFlight {
    const FORMAT: Format = Format::OnFlight;
    const START: u8 = b'B';
    const LONGEST: usize = 158;

    fn look(bytes: &[u8]) -> Look {
        match bytes {
            [_, b'F', 1, 152, ..] => match bytes.get(..Self::LONGEST) {
                Some(frame) => judge(frame[156..] == sums::fletcher_each(&frame[..156]), Self::LONGEST),
                None => Look::More,
            },
            [_] | [_, b'F'] | [_, b'F', 1] => Look::More,
            _ => Look::No,
        }
    }
}

/// The bytes that the body of a sentence may have.
static PERMITTED: [bool; 256] = permitted();

const fn permitted() -> [bool; 256] {
    let mut table = [false; 256];
    let mut byte = 0x20;
    while byte <= 0x7E {
        table[byte] = byte != b'$' as usize && byte != b'*' as usize;
        byte += 1;
    }
    table
}

pub const DIGITS: &[u8; 16] = b"0123456789ABCDEF";

/// The longest body of a sentence.
pub const BODY: usize = 76;

impl Rules for Nmea {
    const FORMAT: Format = Format::Nmea;
    const START: u8 = b'$';
    const LONGEST: usize = 82;

    fn look(bytes: &[u8]) -> Look {
        let body = &bytes[1..bytes.len().min(BODY + 2)];
        let Some(end) = body.iter().position(|byte| !PERMITTED[usize::from(*byte)]) else {
            return if body.len() > BODY { Look::No } else { Look::More };
        };
        if end == 0 || body[end] != b'*' {
            return Look::No;
        }
        let ending = &bytes[end + 2..];
        match *ending {
            [high, low, b'\r', b'\n', ..] => {
                let xor = usize::from(sums::xor(&body[..end]));
                judge([high, low] == [DIGITS[xor / 16], DIGITS[xor % 16]], end + 6)
            }
            [_, _, _, _, ..] => Look::No,
            _ if starts_ending(ending) => Look::More,
            _ => Look::No,
        }
    }
}

/// Whether fewer than four bytes are a start of two digits, CR and LF.
fn starts_ending(bytes: &[u8]) -> bool {
    let digits = bytes.len().min(2);
    bytes[..digits].iter().all(|byte| DIGITS.contains(byte)) && b"\r".starts_with(&bytes[digits..])
}

fn judge(right: bool, len: usize) -> Look {
    if right {
        Look::Frame(len)
    } else {
        Look::No
    }
}
