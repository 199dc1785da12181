//! The formats of lines.

/// The format of a line. It is named by whoever has the line, and never guessed.
///
/// ```
/// use blossomaxle::Format;
///
/// assert_eq!(Format::Nmea.number(), 3);
/// assert_eq!(Format::from_number(3), Some(Format::Nmea));
/// assert_eq!(Format::from_number(0), None);
/// ```
#[derive(Clone, Copy, Debug, PartialEq, Eq, Hash)]
pub enum Format {
    /// 1: the MGL EFIS feed.
    Mgl = 1,
    /// 2: the OnFlight log, version 1.
    OnFlight = 2,
    /// 3: NMEA with the LARUS sentences.
    Nmea = 3,
}

impl Format {
    /// The formats, in the order of their numbers.
    pub const ALL: [Format; 3] = [Format::Mgl, Format::OnFlight, Format::Nmea];

    /// The format's number.
    pub fn number(self) -> u32 {
        self as u32
    }

    /// The format with a number, if there is one.
    pub fn from_number(number: u32) -> Option<Format> {
        Format::ALL.into_iter().find(|format| format.number() == number)
    }
}

impl From<Format> for u32 {
    fn from(format: Format) -> u32 {
        format.number()
    }
}
