//! The hand-written reader: what a Rust programmer writes from docs/FORMATS.md who wants speed, without unsafe code.

use crate::rules::{Look, Rules};
use std::marker::PhantomData;

/// The most bytes that can be pending.
const HELD: usize = 275;

/// A reader of a line of one format.
pub struct Reader<F> {
    closed: bool,
    framed: u32,
    skipped: u32,
    pending: usize,
    held: [u8; HELD],
    rules: PhantomData<F>,
}

impl<F: Rules> Reader<F> {
    pub fn fresh() -> Reader<F> {
        Reader { closed: false, framed: 0, skipped: 0, pending: 0, held: [0; HELD], rules: PhantomData }
    }

    /// Copies the frames of a piece to the output and says how many bytes they have, or gives the refusal's number.
    pub fn piece(&mut self, piece: &[u8], out: &mut [u8]) -> Result<usize, u32> {
        self.judge(piece.len(), out.len())?;
        let total = self.pending + piece.len();
        if self.pending > 0 && total <= HELD {
            return Ok(self.lengthen(piece, out));
        }
        let (mut at, mut laid) = (0, 0);
        if self.pending > 0 {
            let (joint, len) = self.joint(piece);
            (at, laid) = walk::<F>(&joint[..len], 0..self.pending, out, 0);
            if at < self.pending {
                return Ok(self.settle(total, laid, &joint[at..len]));
            }
            at -= self.pending;
        }
        (at, laid) = walk::<F>(piece, at..piece.len(), out, laid);
        Ok(self.settle(total, laid, &piece[at..]))
    }

    /// Ends the line: bytes that no frame ends are skipped one by one.
    pub fn close(&mut self, out: &mut [u8]) -> Result<usize, u32> {
        self.judge(0, out.len())?;
        let (held, total) = (self.held, self.pending);
        let (mut at, mut laid) = (0, 0);
        while at < total {
            (at, laid) = walk::<F>(&held[..total], at..total, out, laid);
            at += 1;
        }
        self.closed = true;
        Ok(self.settle(total, laid, &[]))
    }

    /// Framed, skipped and pending.
    pub fn counts(&self) -> [u32; 3] {
        [self.framed, self.skipped, self.pending as u32]
    }

    fn judge(&self, piece: usize, out: usize) -> Result<(), u32> {
        let line = u64::from(self.framed) + u64::from(self.skipped) + (self.pending + piece) as u64;
        match () {
            _ if self.closed => Err(2),
            _ if piece > 4096 => Err(1),
            _ if line > u64::from(u32::MAX) => Err(3),
            _ if out < self.pending + piece => Err(4),
            _ => Ok(()),
        }
    }

    /// Reads a short piece behind the held bytes, where they are held.
    fn lengthen(&mut self, piece: &[u8], out: &mut [u8]) -> usize {
        let total = self.pending + piece.len();
        self.held[self.pending..total].copy_from_slice(piece);
        let (at, laid) = walk::<F>(&self.held[..total], 0..total, out, 0);
        if at > 0 {
            self.held.copy_within(at..total, 0);
        }
        self.count(total, laid, total - at)
    }

    /// The held bytes, and so many of the piece's that every start among the held ones is decided.
    fn joint(&self, piece: &[u8]) -> ([u8; 2 * HELD], usize) {
        let mut joint = [0; 2 * HELD];
        let len = self.pending + piece.len().min(F::LONGEST - 1);
        joint[..self.pending].copy_from_slice(&self.held[..self.pending]);
        joint[self.pending..len].copy_from_slice(&piece[..len - self.pending]);
        (joint, len)
    }

    /// Counts the bytes of a call, and holds the rest of them.
    fn settle(&mut self, total: usize, laid: usize, rest: &[u8]) -> usize {
        self.held[..rest.len()].copy_from_slice(rest);
        self.count(total, laid, rest.len())
    }

    fn count(&mut self, total: usize, laid: usize, pending: usize) -> usize {
        self.framed += laid as u32;
        self.skipped += (total - laid - pending) as u32;
        self.pending = pending;
        laid
    }
}

/// Copies the frames that begin in a part of the bytes to the output, behind those copied before, up to a start that
/// needs more bytes. Gives the place where it stopped and the end of what is copied.
fn walk<F: Rules>(bytes: &[u8], part: std::ops::Range<usize>, out: &mut [u8], mut laid: usize) -> (usize, usize) {
    let mut at = part.start;
    while at < part.end {
        let Some(skipped) = bytes[at..part.end].iter().position(|byte| *byte == F::START) else {
            return (part.end, laid);
        };
        at += skipped;
        match F::look(&bytes[at..]) {
            Look::Frame(len) => {
                out[laid..laid + len].copy_from_slice(&bytes[at..at + len]);
                (at, laid) = (at + len, laid + len);
            }
            Look::No => at += 1,
            Look::More => break,
        }
    }
    (at, laid)
}
