//! Readers: a line that comes in pieces.

use crate::call;
use crate::{Format, Refusal};
use std::fmt;

/// How many bytes a reader holds: as many as can be pending in any format.
const HELD: usize = 275;

/// The bytes of a reader: five words of four bytes, and those that it holds.
pub const READER_LEN: usize = 20 + HELD;

/// The longest piece.
pub const LONGEST_PIECE: usize = 4096;

/// The length of an output that takes the frames of every piece: a piece, and what can be pending.
pub const MAX_OUTPUT: usize = HELD + LONGEST_PIECE;

/// A reader of a line.
///
/// It hands out the line's frames, whole and with a right checksum, and counts all other bytes. How the bytes are
/// divided into pieces does not matter.
///
/// ```
/// use blossomaxle::{Format, Reader, MAX_OUTPUT};
///
/// # fn main() -> Result<(), blossomaxle::Refusal> {
/// let mut reader = Reader::fresh(Format::Nmea)?;
/// let mut out = [0; MAX_OUTPUT];
/// assert_eq!(reader.piece(b"x$$PLARB,12", &mut out)?, 0);
/// let handed = reader.piece(b".33*4C\r\n", &mut out)?;
/// assert_eq!(&out[..handed], b"$PLARB,12.33*4C\r\n");
/// reader.close(&mut out)?;
/// let counts = reader.counts();
/// assert_eq!((counts.framed, counts.skipped, counts.pending), (17, 2, 0));
/// # Ok(())
/// # }
/// ```
///
/// A reader is aligned to 512 bytes, so that it does not cross a page: an accepted call zeroes the held bytes after the
/// pending ones, and a write across two pages takes some 10 ns longer.
#[derive(Clone, PartialEq, Eq)]
#[repr(align(512))]
pub struct Reader {
    bytes: [u8; READER_LEN],
}

/// How many bytes of a line are framed, skipped and pending; together they are all bytes so far.
#[derive(Clone, Copy, Debug, PartialEq, Eq, Hash)]
pub struct Counts {
    /// The lengths of the frames handed out, added up.
    pub framed: u32,
    /// Bytes that no frame begins with and no frame has.
    pub skipped: u32,
    /// Bytes held back, since they may be the start of a frame.
    pub pending: u32,
}

impl Reader {
    /// A fresh reader of a format, given as a [`Format`] or as its number.
    ///
    /// An unknown number is [`Refusal::BrokenReader`].
    ///
    /// ```
    /// use blossomaxle::{Format, Reader, Refusal};
    ///
    /// assert_eq!(Reader::fresh(Format::Mgl), Reader::fresh(1u32));
    /// assert_eq!(Reader::fresh(4u32), Err(Refusal::BrokenReader));
    /// ```
    pub fn fresh(format: impl Into<u32>) -> Result<Reader, Refusal> {
        let mut bytes = [0; READER_LEN];
        call::fresh(format.into(), &mut bytes).map(|()| Reader { bytes })
    }

    /// Reads a piece. Its frames are copied back to back to the start of the output; the answer says how many bytes
    /// they have. The later bytes of the output are unchanged, and all of them where the piece is refused.
    ///
    /// Refusals, in this order: [`BrokenReader`](Refusal::BrokenReader), [`Closed`](Refusal::Closed),
    /// [`PieceTooLong`](Refusal::PieceTooLong), [`LineTooLong`](Refusal::LineTooLong) and
    /// [`PieceOutputTooSmall`](Refusal::PieceOutputTooSmall). An output of [`MAX_OUTPUT`] bytes is never too small.
    ///
    /// ```
    /// use blossomaxle::{Format, Reader, Refusal, MAX_OUTPUT};
    ///
    /// # fn main() -> Result<(), Refusal> {
    /// let mut reader = Reader::fresh(Format::Nmea)?;
    /// assert_eq!(reader.piece(b"$A*41\r\n", &mut [0; 6]), Err(Refusal::PieceOutputTooSmall));
    /// assert_eq!(reader.piece(&[0; 4097], &mut [0; MAX_OUTPUT]), Err(Refusal::PieceTooLong));
    /// assert_eq!(reader.piece(b"$A*41\r\n", &mut [0; 7]), Ok(7));
    /// # Ok(())
    /// # }
    /// ```
    pub fn piece(&mut self, piece: &[u8], out: &mut [u8]) -> Result<usize, Refusal> {
        self.grown(|bytes| call::piece(bytes, piece, out))
    }

    /// Ends the line. Frames that stood inside a longer one that did not come to its end are copied to the output as by
    /// a piece; all other pending bytes become skipped.
    ///
    /// Refusals, in this order: [`BrokenReader`](Refusal::BrokenReader), [`Closed`](Refusal::Closed) and
    /// [`PieceOutputTooSmall`](Refusal::PieceOutputTooSmall).
    ///
    /// ```
    /// use blossomaxle::{Format, Reader, Refusal, MAX_OUTPUT};
    ///
    /// # fn main() -> Result<(), Refusal> {
    /// let mut reader = Reader::fresh(Format::Nmea)?;
    /// let mut out = [0; MAX_OUTPUT];
    /// reader.piece(b"$cut", &mut out)?;
    /// assert_eq!(reader.counts().pending, 4);
    /// assert_eq!(reader.close(&mut out)?, 0);
    /// assert_eq!(reader.counts().skipped, 4);
    /// assert_eq!(reader.close(&mut out), Err(Refusal::Closed));
    /// # Ok(())
    /// # }
    /// ```
    pub fn close(&mut self, out: &mut [u8]) -> Result<usize, Refusal> {
        self.grown(|bytes| call::close(bytes, out))
    }

    /// Makes a call, and says by how much framed grew.
    fn grown(&mut self, call: impl FnOnce(&mut [u8]) -> Result<(), Refusal>) -> Result<usize, Refusal> {
        let before = self.counts().framed;
        call(&mut self.bytes)?;
        Ok((self.counts().framed - before) as usize)
    }

    /// How many bytes are framed, skipped and pending.
    ///
    /// ```
    /// use blossomaxle::{Format, Reader, MAX_OUTPUT};
    ///
    /// # fn main() -> Result<(), blossomaxle::Refusal> {
    /// let mut reader = Reader::fresh(Format::Mgl)?;
    /// reader.piece(&[5, 5, 2], &mut [0; MAX_OUTPUT])?;
    /// let counts = reader.counts();
    /// assert_eq!((counts.framed, counts.skipped, counts.pending), (0, 1, 2));
    /// # Ok(())
    /// # }
    /// ```
    pub fn counts(&self) -> Counts {
        Counts { framed: self.word(2), skipped: self.word(3), pending: self.word(4) }
    }

    /// The format, or `None` in a reader from stored bytes that name none.
    ///
    /// ```
    /// use blossomaxle::{Format, Reader};
    ///
    /// # fn main() -> Result<(), blossomaxle::Refusal> {
    /// assert_eq!(Reader::fresh(2u32)?.format(), Some(Format::OnFlight));
    /// # Ok(())
    /// # }
    /// ```
    pub fn format(&self) -> Option<Format> {
        Format::from_number(self.word(0))
    }

    /// Whether the line was ended.
    ///
    /// ```
    /// use blossomaxle::{Format, Reader};
    ///
    /// # fn main() -> Result<(), blossomaxle::Refusal> {
    /// let mut reader = Reader::fresh(Format::OnFlight)?;
    /// assert!(!reader.is_closed());
    /// reader.close(&mut [])?;
    /// assert!(reader.is_closed());
    /// # Ok(())
    /// # }
    /// ```
    pub fn is_closed(&self) -> bool {
        self.word(1) != 0
    }

    /// The reader's bytes, to be stored.
    ///
    /// ```
    /// use blossomaxle::{Format, Reader, MAX_OUTPUT};
    ///
    /// # fn main() -> Result<(), blossomaxle::Refusal> {
    /// let mut reader = Reader::fresh(Format::Nmea)?;
    /// reader.piece(b"$A*4", &mut [0; MAX_OUTPUT])?;
    /// let stored = reader.as_bytes().to_vec();
    /// let mut later = Reader::from_bytes(&stored)?;
    /// assert_eq!(later.piece(b"1\r\n", &mut [0; MAX_OUTPUT]), Ok(7));
    /// # Ok(())
    /// # }
    /// ```
    pub fn as_bytes(&self) -> &[u8; READER_LEN] {
        &self.bytes
    }

    /// A reader from stored bytes, [`READER_LEN`] of them or [`Refusal::BrokenReader`].
    ///
    /// Any bytes may be given: each call judges them, and refuses a broken one with 11.
    ///
    /// ```
    /// use blossomaxle::{Reader, Refusal, READER_LEN};
    ///
    /// assert_eq!(Reader::from_bytes(&[0; 3]), Err(Refusal::BrokenReader));
    /// let mut reader = Reader::from_bytes(&[0; READER_LEN]).unwrap();
    /// assert_eq!(reader.piece(b"", &mut []), Err(Refusal::BrokenReader));
    /// ```
    pub fn from_bytes(bytes: &[u8]) -> Result<Reader, Refusal> {
        bytes.try_into().map(|bytes| Reader { bytes }).map_err(|_| Refusal::BrokenReader)
    }

    /// One of the five words: format, closed, framed, skipped, pending.
    fn word(&self, index: usize) -> u32 {
        let at = 4 * index;
        u32::from_le_bytes([self.bytes[at], self.bytes[at + 1], self.bytes[at + 2], self.bytes[at + 3]])
    }
}

impl fmt::Debug for Reader {
    fn fmt(&self, f: &mut fmt::Formatter) -> fmt::Result {
        f.debug_struct("Reader")
            .field("format", &self.word(0))
            .field("closed", &self.is_closed())
            .field("counts", &self.counts())
            .finish_non_exhaustive()
    }
}
