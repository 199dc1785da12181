//! Readers as bytes: what a call makes of any of them.

use super::reading::{closing, reading, Reading};
use super::shape::{shape, Shape};

/// Where the held bytes start, after five words; and how many there are.
pub const HELD_AT: usize = 20;
pub const HELD: usize = 275;

/// The bytes of a reader.
pub const LEN: usize = HELD_AT + HELD;

/// What the counts may be together.
pub const MOST: u64 = 4_294_967_295;

/// The longest piece.
pub const LONGEST_PIECE: usize = 4096;

/// A call on a reader.
#[derive(Clone, Copy, Debug)]
pub enum Call<'a> {
    Piece(&'a [u8]),
    Close,
}

impl<'a> Call<'a> {
    /// The bytes that the call brings.
    pub fn bytes(self) -> &'a [u8] {
        match self {
            Call::Piece(bytes) => bytes,
            Call::Close => &[],
        }
    }

    /// Its reading of bytes.
    pub fn reading(self, format: u32, bytes: &[u8]) -> Reading {
        match self {
            Call::Piece(_) => reading(format, bytes),
            Call::Close => closing(format, bytes),
        }
    }
}

/// What a call answers and leaves.
#[derive(Clone, Debug, PartialEq, Eq)]
pub struct Outcome {
    pub number: u32,
    /// The reader's bytes afterwards.
    pub reader: Vec<u8>,
    /// What is copied to the start of the output.
    pub handed: Vec<u8>,
    /// How many frames that is.
    pub frames: u64,
}

/// A reader taken apart.
#[derive(Clone, Debug)]
pub struct State {
    pub format: u32,
    pub closed: bool,
    pub framed: u32,
    pub skipped: u32,
    pub pending: u32,
    pub held: Vec<u8>,
}

impl State {
    /// The reader in bytes, if they are as many as a reader has.
    pub fn decode(bytes: &[u8]) -> Option<State> {
        if bytes.len() != LEN {
            return None;
        }
        let word = |index: usize| (0..4).fold(0, |sum, k| sum + (u32::from(bytes[4 * index + k]) << (8 * k)));
        Some(State {
            format: word(0),
            closed: word(1) != 0,
            framed: word(2),
            skipped: word(3),
            pending: word(4),
            held: bytes[HELD_AT..].to_vec(),
        })
    }

    /// The bytes of a reader; held bytes beyond those given are 0.
    pub fn encode(&self) -> Vec<u8> {
        let words = [self.format, u32::from(self.closed), self.framed, self.skipped, self.pending];
        let mut bytes: Vec<u8> = words.iter().flat_map(|word| word.to_le_bytes()).collect();
        bytes.extend(&self.held);
        bytes.resize(LEN, 0);
        bytes
    }

    /// The counts together.
    pub fn total(&self) -> u64 {
        u64::from(self.framed) + u64::from(self.skipped) + u64::from(self.pending)
    }

    /// Refusal 11.
    fn broken(&self) -> bool {
        let bound = match self.format {
            1 => 275,
            2 => 157,
            3 => 81,
            _ => return true,
        };
        if self.pending > bound || self.total() > MOST {
            return true;
        }
        let pending = &self.held[..self.pending as usize];
        let proper_start = shape(self.format, pending) == Shape::Start;
        !pending.is_empty() && (self.closed || !proper_start)
    }

    /// The refusals of a call, in the order 11, 2, 1, 3, 4; or 0.
    fn judge(&self, call: Call, out: usize) -> u32 {
        let piece = call.bytes().len();
        let refusals = [
            (11, self.broken()),
            (2, self.closed),
            (1, piece > LONGEST_PIECE),
            (3, self.total() + piece as u64 > MOST),
            (4, (out as u64) < u64::from(self.pending) + piece as u64),
        ];
        refusals.iter().find(|(_, holds)| *holds).map_or(0, |(number, _)| *number)
    }
}

/// A call on the reader in any bytes.
pub fn serve(reader: &[u8], call: Call, out: usize) -> Outcome {
    let refused = |number| Outcome { number, reader: reader.to_vec(), handed: vec![], frames: 0 };
    let Some(state) = State::decode(reader) else { return refused(11) };
    let number = state.judge(call, out);
    if number != 0 {
        return refused(number);
    }
    let line = [&state.held[..state.pending as usize], call.bytes()].concat();
    let found = call.reading(state.format, &line);
    let after = State {
        closed: matches!(call, Call::Close),
        framed: state.framed + found.frames.len() as u32,
        skipped: state.skipped + found.skipped as u32,
        pending: found.pending as u32,
        held: line[line.len() - found.pending..].to_vec(),
        ..state
    };
    Outcome { number: 0, reader: after.encode(), handed: found.frames, frames: found.count }
}

/// A fresh reader, written to bytes that were something else before.
pub fn fresh(format: u32, reader: &[u8]) -> (u32, Vec<u8>) {
    if reader.len() != LEN {
        return (11, reader.to_vec());
    }
    let known = (1..=3).contains(&format);
    let format = if known { format } else { 0 };
    let state = State { format, closed: !known, framed: 0, skipped: 0, pending: 0, held: vec![] };
    (if known { 0 } else { 11 }, state.encode())
}
