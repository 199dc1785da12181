//! The fields of MGL frames.

use super::answer::{clock_values, one_frame, require, Judged};
use super::calendar::{Clock, Time};
use super::MGL;

/// A signed or unsigned number of the body, low byte first.
fn number<const N: usize>(body: &[u8], at: usize) -> [u8; N] {
    std::array::from_fn(|k| body[at + k])
}

fn i32_at(body: &[u8], at: usize) -> i64 {
    i32::from_le_bytes(number(body, at)).into()
}

fn u16_at(body: &[u8], at: usize) -> i64 {
    u16::from_le_bytes(number(body, at)).into()
}

/// Where the body starts and ends.
pub fn body(frame: &[u8]) -> Judged {
    one_frame(MGL, frame)?;
    Ok(vec![8, frame.len() as i64 - 4])
}

/// Type, rate, count, version.
pub fn header(frame: &[u8]) -> Judged {
    one_frame(MGL, frame)?;
    Ok(frame[4..8].iter().map(|byte| i64::from(*byte)).collect())
}

/// The body of a frame of a type in version 1, or 7 or 8.
fn message(frame: &[u8], kind: u8, size_right: impl Fn(usize) -> bool) -> Result<&[u8], u32> {
    one_frame(MGL, frame)?;
    let body = &frame[8..frame.len() - 4];
    require(frame[4] == kind && frame[7] == 1 && size_right(body.len()), 8)?;
    Ok(body)
}

/// GPS: type 2, L = 36.
pub fn gps(frame: &[u8]) -> Judged {
    let body = message(frame, 2, |size| size == 36 + 8)?;
    let mode = body[34];
    require(mode <= 5, 9)?;
    let mut values: Vec<i64> = [0, 4, 8, 12, 16, 20, 24].iter().map(|at| i32_at(body, *at)).collect();
    values.extend([u16_at(body, 28), u16_at(body, 30), i16::from_le_bytes(number(body, 32)).into()]);
    values.extend(body[34..43].iter().map(|byte| i64::from(*byte)));
    values.extend([i64::from(mode != 0), i64::from(mode == 3 || mode == 5)]);
    Ok(values)
}

/// Fuel: type 11, a body of 4 + 8k bytes whose first number is k.
fn tanks(frame: &[u8]) -> Result<(&[u8], i64), u32> {
    let body = message(frame, 11, |size| (1..=32).any(|k| size == 4 + 8 * k))?;
    let k = (body.len() as i64 - 4) / 8;
    require(i32_at(body, 0) == k, 9)?;
    Ok((body, k))
}

pub fn fuel_count(frame: &[u8]) -> Judged {
    let (_, k) = tanks(frame)?;
    Ok(vec![k])
}

pub fn fuel_tank(frame: &[u8], item: u32) -> Judged {
    let (body, k) = tanks(frame)?;
    require(i64::from(item) < k, 9)?;
    let at = 4 + 8 * item as usize;
    Ok(vec![i32_at(body, at), body[at + 4].into(), body[at + 5].into(), u16_at(body, at + 6)])
}

/// Clock: type 1, L = 24; hour, minute, second, day, month, two-digit year.
pub fn clock(frame: &[u8]) -> Judged {
    let body = message(frame, 1, |size| size == 24 + 8)?;
    let fields: [i64; 6] = std::array::from_fn(|k| body[24 + k].into());
    let [hour, minute, second, day, month, year] = fields;
    let clock = if fields == [0; 6] {
        Clock::Unset
    } else {
        Time { year: 2000 + year, year_right: year <= 99, month, day, hour, minute, second }.judge()
    };
    Ok(clock_values(clock))
}
