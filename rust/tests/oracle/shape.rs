//! Shapes and frames: what stands at the front of some bytes.

use super::checksum::{crc32, fletcher, xor_digits};
use super::{MGL, NMEA, ONFLIGHT};

/// How bytes stand to the shapes of a format.
#[derive(Clone, Copy, Debug, PartialEq, Eq)]
pub enum Shape {
    /// They begin with a shape of so many bytes.
    Whole(usize),
    /// They are empty or a proper start of some shape.
    Start,
    /// Neither.
    Broken,
}

/// How bytes stand to the frames of a format.
#[derive(Clone, Copy, Debug, PartialEq, Eq)]
pub enum Front {
    /// They begin with a frame of so many bytes.
    Frame(usize),
    /// They are empty or a proper start of some shape.
    Start,
    /// Neither: a wrong byte, or a whole shape with a wrong checksum.
    Neither,
}

/// What stands at the front of bytes.
pub fn front(format: u32, bytes: &[u8]) -> Front {
    match shape(format, bytes) {
        Shape::Whole(length) if checksum_right(format, &bytes[..length]) => Front::Frame(length),
        Shape::Start => Front::Start,
        _ => Front::Neither,
    }
}

/// The length of the frame that bytes begin with, or 0.
pub fn frame_len(format: u32, bytes: &[u8]) -> usize {
    match front(format, bytes) {
        Front::Frame(length) => length,
        Front::Start | Front::Neither => 0,
    }
}

/// Whether bytes are one whole frame.
pub fn is_frame(format: u32, bytes: &[u8]) -> bool {
    front(format, bytes) == Front::Frame(bytes.len())
}

/// The shape at the front of bytes. An unknown format has none.
pub fn shape(format: u32, bytes: &[u8]) -> Shape {
    match format {
        MGL => mgl(bytes),
        ONFLIGHT => onflight(bytes),
        NMEA => nmea(bytes),
        _ => Shape::Broken,
    }
}

/// 05 02 L X and L + 16 bytes more; X is 255 minus L, and L = 0 stands for 256.
fn mgl(bytes: &[u8]) -> Shape {
    let right = |(at, byte): (usize, &u8)| match at {
        0 => *byte == 0x05,
        1 => *byte == 0x02,
        3 => *byte == 255 - bytes[2],
        _ => true,
    };
    if !bytes.iter().enumerate().take(4).all(right) {
        return Shape::Broken;
    }
    match bytes.get(2) {
        Some(0) => counted(bytes, 276),
        Some(l) => counted(bytes, usize::from(*l) + 20),
        None => Shape::Start,
    }
}

/// 42 46 01 98 and 154 bytes more.
fn onflight(bytes: &[u8]) -> Shape {
    let right = bytes.iter().zip([0x42, 0x46, 0x01, 0x98]).all(|(byte, wanted)| *byte == wanted);
    if right {
        counted(bytes, 158)
    } else {
        Shape::Broken
    }
}

/// A shape of a known length whose bytes are right so far.
fn counted(bytes: &[u8], length: usize) -> Shape {
    if bytes.len() >= length {
        Shape::Whole(length)
    } else {
        Shape::Start
    }
}

/// `$`, 1 to 76 permitted bytes, `*`, two digits, CR, LF.
fn nmea(bytes: &[u8]) -> Shape {
    let Some((first, rest)) = bytes.split_first() else { return Shape::Start };
    if *first != b'$' {
        return Shape::Broken;
    }
    let body = rest.iter().take(77).take_while(|byte| permitted(**byte)).count();
    let Some(after) = rest.get(body) else {
        return if body <= 76 { Shape::Start } else { Shape::Broken };
    };
    if body == 0 || body > 76 || *after != b'*' {
        return Shape::Broken;
    }
    ending(&rest[body + 1..], 1 + body + 5)
}

/// Two digits, CR and LF, which end a shape of so many bytes.
fn ending(bytes: &[u8], length: usize) -> Shape {
    let right = |(at, byte): (usize, &u8)| match at {
        0 | 1 => matches!(*byte, b'0'..=b'9' | b'A'..=b'F'),
        2 => *byte == b'\r',
        _ => *byte == b'\n',
    };
    if !bytes.iter().enumerate().take(4).all(right) {
        Shape::Broken
    } else if bytes.len() < 4 {
        Shape::Start
    } else {
        Shape::Whole(length)
    }
}

/// The bytes of an NMEA body.
pub fn permitted(byte: u8) -> bool {
    (0x20..=0x7E).contains(&byte) && byte != b'$' && byte != b'*'
}

/// Whether the checksum of a whole shape is right.
fn checksum_right(format: u32, shape: &[u8]) -> bool {
    let end = shape.len();
    match format {
        MGL => shape[end - 4..] == crc32(&shape[4..end - 4]).to_le_bytes(),
        ONFLIGHT => shape[end - 2..] == fletcher(&shape[..end - 2]),
        _ => shape[end - 4..end - 2] == xor_digits(&shape[1..end - 5]),
    }
}
