//! The fields of NMEA sentences.

use super::{clock, Answer};
use crate::rules::{BODY, DIGITS};
use blossomaxle::nmea::{Parameter, Position, Setting, Source, Status};
use blossomaxle::{Clock, Refusal};

/// The body of one whole sentence, and the number of its commas. The pass over the body stops at no byte, so that the
/// compiler makes it of vectors.
fn body(frame: &[u8]) -> Answer<(&[u8], u8)> {
    let [b'$', body @ .., b'*', high, low, b'\r', b'\n'] = frame else { return Err(Refusal::NotOneFrame) };
    if body.is_empty() || body.len() > BODY {
        return Err(Refusal::NotOneFrame);
    }
    let (xor, permitted, commas) = body.iter().fold((0, true, 0), |(xor, permitted, commas), &byte| {
        let good = (0x20..=0x7E).contains(&byte) & (byte != b'$') & (byte != b'*');
        (xor ^ byte, permitted & good, commas + u8::from(byte == b','))
    });
    if !permitted || [*high, *low] != [xor / 16, xor % 16].map(|digit| DIGITS[usize::from(digit)]) {
        return Err(Refusal::NotOneFrame);
    }
    Ok((body, commas))
}

/// The fields after the tag of a sentence, which has to have this tag and so many commas.
fn fields<'a>(frame: &'a [u8], tag: &[u8; 5], count: u8) -> Answer<impl Iterator<Item = &'a [u8]>> {
    let (body, commas) = body(frame)?;
    match body.strip_prefix(tag) {
        Some([b',', fields @ ..]) if commas == count => Ok(fields.split(|byte| *byte == b',')),
        Some([] | [b',', ..]) => Err(Refusal::OutOfForm),
        _ => Err(Refusal::OtherMessage),
    }
}

/// The fields of an RMC sentence, of which the first is field 1.
fn rmc(frame: &[u8]) -> Answer<impl Iterator<Item = &[u8]>> {
    fields(frame, b"GPRMC", 12)
}

/// The field after so many others. There is one, since the commas were counted.
fn field<'a>(fields: &mut impl Iterator<Item = &'a [u8]>, others: usize) -> Answer<&'a [u8]> {
    fields.nth(others).ok_or(Refusal::OutOfForm)
}

/// The number that at most nine digits write: one test of all, and not one of each.
fn number(digits: &[u8]) -> Option<u64> {
    if digits.len() > 9 {
        return None;
    }
    let (number, good) = digits.iter().fold((0, true), |(number, good), byte| {
        let digit = byte.wrapping_sub(b'0');
        (number * 10 + u64::from(digit), good & (digit <= 9))
    });
    good.then_some(number)
}

/// The numbers that six digits write, two for each.
fn pairs(digits: &[u8; 6]) -> Option<[u8; 3]> {
    number(digits)?;
    Some([0, 2, 4].map(|i| (digits[i] - b'0') * 10 + (digits[i + 1] - b'0')))
}

pub fn rmc_clock(frame: &[u8]) -> Answer<Clock> {
    let mut fields = rmc(frame)?;
    let (time, date) = (field(&mut fields, 0)?, field(&mut fields, 7)?);
    if time.is_empty() || date.is_empty() {
        return Ok(Clock::Unset);
    }
    clock_of(time, date).ok_or(Refusal::OutOfForm)
}

fn clock_of(time: &[u8], date: &[u8]) -> Option<Clock> {
    let (time, [b'.', hundredths @ ..]) = time.split_first_chunk()? else { return None };
    number(hundredths).filter(|_| hundredths.len() == 2)?;
    let ([hour, minute, second], [day, month, year]) = (pairs(time)?, pairs(date.try_into().ok()?)?);
    Some(clock([year, month, day, hour, minute, second], 2000, 99))
}

pub fn rmc_position(frame: &[u8]) -> Answer<Position> {
    let mut fields = rmc(frame)?;
    let (latitude, northing) = (field(&mut fields, 2)?, field(&mut fields, 0)?);
    let latitude = angle(latitude, [2, 90], northing, [b'N', b'S']).ok_or(Refusal::OutOfForm)?;
    let (longitude, easting) = (field(&mut fields, 0)?, field(&mut fields, 0)?);
    let longitude = angle(longitude, [3, 180], easting, [b'E', b'W']).ok_or(Refusal::OutOfForm)?;
    Ok(Position { latitude, longitude })
}

/// An angle of at most so many degree digits, and so many degrees.
fn angle(field: &[u8], [digits, most]: [u64; 2], hemisphere: &[u8], [plus, minus]: [u8; 2]) -> Option<i32> {
    let (degrees, &[m1, m2, b'.', p1, p2, p3, p4, p5]) = field.split_last_chunk()? else { return None };
    if degrees.is_empty() || degrees.len() as u64 > digits {
        return None;
    }
    let minutes = number(&[m1, m2, p1, p2, p3, p4, p5]).filter(|minutes| *minutes < 6_000_000)?;
    let size = number(degrees)? * 6_000_000 + minutes;
    if size > most * 6_000_000 {
        return None;
    }
    match *hemisphere {
        [letter] if letter == plus => Some(size as i32),
        [letter] if letter == minus => Some(-(size as i32)),
        _ => None,
    }
}

pub fn rmc_status(frame: &[u8]) -> Answer<Status> {
    match field(&mut rmc(frame)?, 1)? {
        b"A" => Ok(Status::Valid),
        b"V" => Ok(Status::Warning),
        _ => Err(Refusal::OutOfForm),
    }
}

pub fn setting(frame: &[u8]) -> Answer<Setting> {
    let mut fields = fields(frame, b"PLARS", 3)?;
    let (source, name, value) = (field(&mut fields, 0)?, field(&mut fields, 0)?, field(&mut fields, 0)?);
    let source = match source {
        b"L" => Source::Larus,
        b"H" => Source::Host,
        _ => return Err(Refusal::OutOfForm),
    };
    let (parameter, decimals, range) = match name {
        b"MC" => (Parameter::MacCready, 1, 0..=99),
        b"BAL" => (Parameter::Ballast, 3, 0..=1000),
        b"BUGS" => (Parameter::Bugs, 0, 0..=50),
        b"QNH" => (Parameter::Qnh, 1, 5000..=12_000),
        _ => return Err(Refusal::OutOfForm),
    };
    let value = steps(value, decimals).filter(|value| range.contains(value)).ok_or(Refusal::OutOfForm)?;
    Ok(Setting { source, parameter, value: value as u32 })
}

/// A value in steps of its last decimal, in its one spelling.
fn steps(value: &[u8], decimals: usize) -> Option<u64> {
    let point = if decimals == 0 { value.len() } else { value.len().checked_sub(decimals + 1)? };
    let (whole, fraction) = value.split_at(point);
    let fraction = match fraction {
        [b'.', fraction @ ..] => fraction,
        [] => fraction,
        _ => return None,
    };
    match whole {
        [] | [b'0', _, ..] => None,
        _ => Some(number(whole)? * 10u64.pow(decimals as u32) + number(fraction)?),
    }
}
