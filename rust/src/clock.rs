//! Clock times.

use crate::row::{misfit, Row};

/// What a clock says.
///
/// ```
/// use blossomaxle::{nmea, Clock};
///
/// let frame = b"$GPRMC,134943.69,A,4829.57602,N,1026.79034,E,057.0,081.9,170623,,,A*67\r\n";
/// assert_eq!(nmea::rmc_clock(frame), Ok(Clock::Good(1_687_009_783)));
/// ```
#[derive(Clone, Copy, Debug, PartialEq, Eq, Hash)]
pub enum Clock {
    /// The clock was not set.
    Unset,
    /// Seconds since 1970-01-01 00:00:00, 86,400 a day.
    Good(i64),
    /// A time that does not exist, with its first wrong field.
    Wrong(Field),
}

/// A field of a clock, in the order in which they are judged.
#[derive(Clone, Copy, Debug, PartialEq, Eq, PartialOrd, Ord, Hash)]
pub enum Field {
    /// Not 1 to 12.
    Month,
    /// Not 1 to the length of the month.
    Day,
    /// Over 23.
    Hour,
    /// Over 59.
    Minute,
    /// Over 59.
    Second,
    /// An MGL year byte over 99.
    Year,
}

impl Clock {
    #[inline]
    pub(crate) fn from_row(mut row: Row) -> Clock {
        let (answer, seconds) = (row.next(), row.next());
        match answer {
            0 => Clock::Unset,
            1 => Clock::Good(seconds),
            2 => Clock::Wrong(Field::Month),
            3 => Clock::Wrong(Field::Day),
            4 => Clock::Wrong(Field::Hour),
            5 => Clock::Wrong(Field::Minute),
            6 => Clock::Wrong(Field::Second),
            7 => Clock::Wrong(Field::Year),
            other => misfit(other),
        }
    }
}
