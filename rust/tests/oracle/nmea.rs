//! The fields of RMC sentences.

use super::answer::{clock_values, one_frame, require, Judged};
use super::calendar::{Clock, Time};
use super::NMEA;

/// Where the body starts and ends.
pub fn body(frame: &[u8]) -> Judged {
    one_frame(NMEA, frame)?;
    Ok(vec![1, frame.len() as i64 - 5])
}

/// The fields after the tag, where the sentence has that tag; else 7 or 8.
pub fn fields_of<'a>(frame: &'a [u8], tag: &[u8]) -> Result<Vec<&'a [u8]>, u32> {
    one_frame(NMEA, frame)?;
    let mut fields = frame[1..frame.len() - 5].split(|byte| *byte == b',');
    require(fields.next() == Some(tag), 8)?;
    Ok(fields.collect())
}

/// The twelve fields of an RMC sentence. Field 1 of the paper is the first here.
fn rmc(frame: &[u8]) -> Result<Vec<&[u8]>, u32> {
    let fields = fields_of(frame, b"GPRMC")?;
    require(fields.len() == 12, 9)?;
    Ok(fields)
}

/// A number of digits and nothing else, or 9.
fn digits(text: &[u8]) -> Result<i64, u32> {
    require(text.iter().all(u8::is_ascii_digit), 9)?;
    Ok(text.iter().fold(0, |sum, digit| 10 * sum + i64::from(digit - b'0')))
}

/// Time hhmmss.ss in field 1 and date ddmmyy in field 9; an empty one is unset.
pub fn rmc_clock(frame: &[u8]) -> Judged {
    let fields = rmc(frame)?;
    let (time, date) = (fields[0], fields[8]);
    if time.is_empty() || date.is_empty() {
        return Ok(clock_values(Clock::Unset));
    }
    require(time.len() == 9 && time[6] == b'.' && date.len() == 6, 9)?;
    digits(&time[7..])?;
    let time = Time {
        hour: digits(&time[0..2])?,
        minute: digits(&time[2..4])?,
        second: digits(&time[4..6])?,
        day: digits(&date[0..2])?,
        month: digits(&date[2..4])?,
        year: 2000 + digits(&date[4..6])?,
        year_right: true,
    };
    Ok(clock_values(time.judge()))
}

/// Latitude in fields 3 and 4, longitude in 5 and 6.
pub fn rmc_position(frame: &[u8]) -> Judged {
    let fields = rmc(frame)?;
    let latitude = angle(fields[2], fields[3], 90, [b"N", b"S"])?;
    let longitude = angle(fields[4], fields[5], 180, [b"E", b"W"])?;
    Ok(vec![latitude, longitude])
}

/// Degrees with as many digits as the most has or fewer, mm.mmmmm, and the side, which is negative if it is the second.
fn angle(text: &[u8], side: &[u8], most: i64, sides: [&[u8; 1]; 2]) -> Result<i64, u32> {
    let degree_digits = if most == 90 { 1..=2 } else { 1..=3 };
    let (before, after) = text.split_at(text.iter().position(|byte| *byte == b'.').ok_or(9u32)?);
    require(before.len() > 2 && degree_digits.contains(&(before.len() - 2)) && after.len() == 6, 9)?;
    let (degrees, minutes) = before.split_at(before.len() - 2);
    let minutes = digits(minutes)?;
    require(minutes < 60, 9)?;
    let size = (60 * digits(degrees)? + minutes) * 100_000 + digits(&after[1..])?;
    require(size <= most * 60 * 100_000, 9)?;
    match sides.iter().position(|letter| *letter == side) {
        Some(0) => Ok(size),
        Some(_) => Ok(-size),
        None => Err(9),
    }
}

/// A or V in field 2.
pub fn rmc_status(frame: &[u8]) -> Judged {
    match rmc(frame)?[1] {
        [letter @ (b'A' | b'V')] => Ok(vec![i64::from(*letter)]),
        _ => Err(9),
    }
}
