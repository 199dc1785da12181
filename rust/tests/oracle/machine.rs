//! The plain machine: it is fed a list of calls, and keeps the bytes delivered and whether a close was accepted.

use super::reader::{Call, LONGEST_PIECE, MOST};
use super::reading::{closing, reading, Reading};

/// The plain machine of a format.
pub struct Machine {
    format: u32,
    delivered: Vec<u8>,
    closed: bool,
}

impl Machine {
    pub fn new(format: u32) -> Machine {
        Machine { format, delivered: vec![], closed: false }
    }

    /// The refusals of a call, in the order 2, 1, 3, 4; or 0.
    pub fn judge(&self, call: Call, out: usize) -> u32 {
        let piece = call.bytes().len();
        if self.closed {
            2
        } else if piece > LONGEST_PIECE {
            1
        } else if (self.delivered.len() + piece) as u64 > MOST {
            3
        } else if out < self.reading().pending + piece {
            4
        } else {
            0
        }
    }

    /// An accepted call.
    pub fn accept(&mut self, call: Call) {
        self.delivered.extend(call.bytes());
        self.closed = matches!(call, Call::Close);
    }

    /// The reading of all bytes delivered or, once a close was accepted, their closing reading.
    pub fn reading(&self) -> Reading {
        if self.closed {
            closing(self.format, &self.delivered)
        } else {
            reading(self.format, &self.delivered)
        }
    }

    pub fn delivered(&self) -> &[u8] {
        &self.delivered
    }
}
