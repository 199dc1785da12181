//! The reading of a whole byte string, and its closing reading.

use super::shape::{front, Front};

/// What a reading finds.
#[derive(Clone, Debug, Default, PartialEq, Eq)]
pub struct Reading {
    /// The frames, joined. Framed is their length.
    pub frames: Vec<u8>,
    /// How many frames.
    pub count: u64,
    /// Bytes stepped over.
    pub skipped: usize,
    /// Bytes from the stop to the end.
    pub pending: usize,
}

/// The reading: it stops where the rest may become a frame.
pub fn reading(format: u32, bytes: &[u8]) -> Reading {
    read(format, bytes, false)
}

/// The closing reading: it has no stop.
pub fn closing(format: u32, bytes: &[u8]) -> Reading {
    read(format, bytes, true)
}

fn read(format: u32, bytes: &[u8], closes: bool) -> Reading {
    let mut found = Reading::default();
    let mut rest = bytes;
    while !rest.is_empty() {
        match front(format, rest) {
            Front::Frame(length) => {
                found.frames.extend(&rest[..length]);
                found.count += 1;
                rest = &rest[length..];
            }
            Front::Start if !closes => {
                found.pending = rest.len();
                return found;
            }
            _ => {
                found.skipped += 1;
                rest = &rest[1..];
            }
        }
    }
    found
}
