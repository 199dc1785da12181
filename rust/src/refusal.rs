//! Why a call was refused.

use std::error::Error;
use std::fmt;

/// A refusal. A refused call changes nothing that was lent to it.
///
/// ```
/// use blossomaxle::{mgl, Refusal};
///
/// let refusal = mgl::header(b"no frame").unwrap_err();
/// assert_eq!(refusal, Refusal::NotOneFrame);
/// assert_eq!(refusal.to_string(), "refused 7: the bytes are not one whole frame of the format");
/// ```
#[derive(Clone, Copy, Debug, PartialEq, Eq, Hash)]
#[non_exhaustive]
pub enum Refusal {
    /// 1: a piece longer than [`LONGEST_PIECE`](crate::LONGEST_PIECE).
    PieceTooLong,
    /// 2: a piece or a close on a closed reader.
    Closed,
    /// 3: framed, skipped, pending and the piece's length are together over 4,294,967,295.
    LineTooLong,
    /// 4: the output is smaller than pending plus the piece.
    PieceOutputTooSmall,
    /// 5: a body or payload that the writer of the format does not take.
    NotWritable,
    /// 6: the writer's output is smaller than the frame.
    OutputTooSmall,
    /// 7: the bytes are not one whole frame of the format.
    NotOneFrame,
    /// 8: a frame, but of another message, version or size than the one asked for.
    OtherMessage,
    /// 9: a field outside its form or range, or an item past the last.
    OutOfForm,
    /// 10: the table of contents of a bench file is broken.
    BrokenToc,
    /// 11: a reader with an unknown format, or whose pending bytes or counts cannot be, or a fresh reader of an unknown
    /// format.
    BrokenReader,
    /// A number that this crate does not know: the library is newer than the crate.
    Other(u32),
}

/// The refusals 1 to 11 with their texts, in the order of their numbers.
const KNOWN: [(Refusal, &str); 11] = [
    (Refusal::PieceTooLong, "the piece is longer than 4,096 bytes"),
    (Refusal::Closed, "the reader is closed"),
    (Refusal::LineTooLong, "the line would be longer than 4,294,967,295 bytes"),
    (Refusal::PieceOutputTooSmall, "the output is smaller than pending plus the piece"),
    (Refusal::NotWritable, "the writer of the format does not take this content"),
    (Refusal::OutputTooSmall, "the output is smaller than the frame"),
    (Refusal::NotOneFrame, "the bytes are not one whole frame of the format"),
    (Refusal::OtherMessage, "the frame is of another message, version or size"),
    (Refusal::OutOfForm, "a field is outside its form or range, or there is no such item"),
    (Refusal::BrokenToc, "the table of contents of the bench file is broken"),
    (Refusal::BrokenReader, "the reader is broken, or its format unknown"),
];

impl Refusal {
    /// The refusal's number.
    ///
    /// ```
    /// assert_eq!(blossomaxle::Refusal::PieceTooLong.number(), 1);
    /// assert_eq!(blossomaxle::Refusal::BrokenReader.number(), 11);
    /// ```
    pub fn number(self) -> u32 {
        match self {
            Refusal::PieceTooLong => 1,
            Refusal::Closed => 2,
            Refusal::LineTooLong => 3,
            Refusal::PieceOutputTooSmall => 4,
            Refusal::NotWritable => 5,
            Refusal::OutputTooSmall => 6,
            Refusal::NotOneFrame => 7,
            Refusal::OtherMessage => 8,
            Refusal::OutOfForm => 9,
            Refusal::BrokenToc => 10,
            Refusal::BrokenReader => 11,
            Refusal::Other(number) => number,
        }
    }

    /// The refusal with a number, or `None` for 0, which is done.
    ///
    /// ```
    /// use blossomaxle::Refusal;
    ///
    /// assert_eq!(Refusal::from_number(0), None);
    /// assert_eq!(Refusal::from_number(2), Some(Refusal::Closed));
    /// assert_eq!(Refusal::from_number(99), Some(Refusal::Other(99)));
    /// ```
    #[inline]
    pub fn from_number(number: u32) -> Option<Refusal> {
        let before = number.checked_sub(1)? as usize;
        Some(KNOWN.get(before).map_or(Refusal::Other(number), |(refusal, _)| *refusal))
    }

    /// What the library answered: done, or refused.
    #[inline]
    pub(crate) fn judge(number: u32) -> Result<(), Refusal> {
        Refusal::from_number(number).map_or(Ok(()), Err)
    }
}

impl fmt::Display for Refusal {
    fn fmt(&self, f: &mut fmt::Formatter) -> fmt::Result {
        let text = KNOWN.iter().find(|(refusal, _)| refusal == self).map_or("unknown to this crate", |(_, text)| *text);
        write!(f, "refused {}: {text}", self.number())
    }
}

impl Error for Refusal {}
