//! Frames one by one.

use crate::{call, Format};
use std::iter::FusedIterator;

/// The length of the frame of a format that some bytes begin with, or `None` if they begin with no frame.
///
/// The bytes after the frame do not matter. A frame that is cut, or whose checksum is wrong, is none.
///
/// ```
/// use blossomaxle::{frame_len, Format};
///
/// assert_eq!(frame_len(Format::Nmea, b"$A*41\r\n$PLARB"), Some(7));
/// assert_eq!(frame_len(Format::Nmea, b"$A*42\r\n"), None);
/// assert_eq!(frame_len(Format::Nmea, b"$A*4"), None);
/// assert_eq!(frame_len(Format::Mgl, b"$A*41\r\n"), None);
/// ```
pub fn frame_len(format: Format, bytes: &[u8]) -> Option<usize> {
    Some(call::frame_len(format.number(), bytes)).filter(|length| *length > 0)
}

/// The frames that stand back to back in bytes which a [`Reader`](crate::Reader) handed out.
///
/// ```
/// use blossomaxle::{Format, Frames, Reader, MAX_OUTPUT};
///
/// # fn main() -> Result<(), blossomaxle::Refusal> {
/// let mut reader = Reader::fresh(Format::Nmea)?;
/// let mut out = [0; MAX_OUTPUT];
/// let handed = reader.piece(b"$A*41\r\nnoise$PLARB,12.33*4C\r\n", &mut out)?;
/// let frames: Vec<&[u8]> = Frames::new(Format::Nmea, &out[..handed]).collect();
/// assert_eq!(frames, [&b"$A*41\r\n"[..], b"$PLARB,12.33*4C\r\n"]);
/// # Ok(())
/// # }
/// ```
#[derive(Clone, Debug)]
pub struct Frames<'a> {
    format: Format,
    rest: &'a [u8],
}

impl<'a> Frames<'a> {
    /// The frames of a format that some bytes begin with, up to the first byte that begins none.
    ///
    /// Bytes that a reader of this format handed out are such frames and nothing else. Frames that come after other
    /// bytes are found by a [`Reader`](crate::Reader).
    ///
    /// ```
    /// use blossomaxle::{Format, Frames};
    ///
    /// assert_eq!(Frames::new(Format::Nmea, b"$A*41\r\n$A*41\r\nnoise$A*41\r\n").count(), 2);
    /// assert_eq!(Frames::new(Format::OnFlight, &[0; 316]).count(), 0);
    /// ```
    pub fn new(format: Format, bytes: &'a [u8]) -> Frames<'a> {
        Frames { format, rest: bytes }
    }
}

impl<'a> Iterator for Frames<'a> {
    type Item = &'a [u8];

    fn next(&mut self) -> Option<&'a [u8]> {
        let (first, rest) = self.rest.split_at(frame_len(self.format, self.rest)?);
        self.rest = rest;
        Some(first)
    }
}

impl FusedIterator for Frames<'_> {}
