//! The field functions, hand-written: what a Rust programmer writes from docs/FORMATS.md who wants speed, without
//! unsafe code. Checksums are those of the reader by hand; a faster Fletcher than its own is in `sums`. Each is a
//! function of a slice alone: it judges first that the slice is one whole frame.

pub mod exported;
pub mod mgl;
pub mod nmea;
pub mod onflight;
mod run;
pub mod steps;

use crate::rules::{Look, Rules};
use blossomaxle::{Clock, Field, Refusal};

/// The value, or the refusal: 7, 8 or 9.
pub type Answer<T> = Result<T, Refusal>;

/// Refuses bytes that are not one whole frame.
fn judge<F: Rules>(bytes: &[u8]) -> Answer<()> {
    if bytes.first() != Some(&F::START) {
        return Err(Refusal::NotOneFrame);
    }
    match F::look(bytes) {
        Look::Frame(len) if len == bytes.len() => Ok(()),
        _ => Err(Refusal::NotOneFrame),
    }
}

/// N bytes of a frame, for the numbers of N bytes.
fn bytes_at<const N: usize>(frame: &[u8], at: usize) -> [u8; N] {
    *frame[at..].first_chunk().expect("no field reaches past its frame")
}

/// The days of each month and of those before it, without a leap day.
static MONTHS: [(u8, u32); 12] = [
    (31, 0),
    (28, 31),
    (31, 59),
    (30, 90),
    (31, 120),
    (30, 151),
    (31, 181),
    (31, 212),
    (30, 243),
    (31, 273),
    (30, 304),
    (31, 334),
];

/// The clock of year, month, day, hour, minute and second. The year counts from `first`, which is not before 1970.
/// `&` and `|` make no branches, which a processor could not guess.
fn clock([year, month, day, hour, minute, second]: [u8; 6], first: u32, largest_year: u8) -> Clock {
    let full = first + u32::from(year);
    let leap = (full % 4 == 0) & ((full % 100 != 0) | (full % 400 == 0));
    let Some(&(length, before)) = MONTHS.get(usize::from(month).wrapping_sub(1)) else {
        return Clock::Wrong(Field::Month);
    };
    match () {
        _ if (day == 0) | (day > length + u8::from(leap & (month == 2))) => Clock::Wrong(Field::Day),
        _ if hour > 23 => Clock::Wrong(Field::Hour),
        _ if minute > 59 => Clock::Wrong(Field::Minute),
        _ if second > 59 => Clock::Wrong(Field::Second),
        _ if year > largest_year => Clock::Wrong(Field::Year),
        _ => {
            let days = days_to(full) + before + u32::from(leap & (month > 2)) + u32::from(day - 1);
            let of_day = u32::from(hour) * 3600 + u32::from(minute) * 60 + u32::from(second);
            Clock::Good(i64::from(days) * 86_400 + i64::from(of_day))
        }
    }
}

/// The days from 1970 to the start of a year.
fn days_to(year: u32) -> u32 {
    (year - 1970) * 365 + (year - 1969) / 4 - (year - 1901) / 100 + (year - 1601) / 400
}

/// The clock of a binary format, in which six zeros are unset.
fn binary_clock(bytes: [u8; 6], first: u32, largest_year: u8) -> Clock {
    if bytes == [0; 6] {
        return Clock::Unset;
    }
    clock(bytes, first, largest_year)
}
