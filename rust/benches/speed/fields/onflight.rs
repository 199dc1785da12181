//! The fields of OnFlight frames.

use super::{binary_clock, bytes_at, judge, Answer};
use crate::rules::OnFlight;
use blossomaxle::onflight::{Axes, Fix, Position, Voltages};
use blossomaxle::{Clock, Refusal};

/// One whole frame.
fn whole(frame: &[u8]) -> Answer<&[u8; 158]> {
    judge::<OnFlight>(frame)?;
    frame.try_into().map_err(|_| Refusal::NotOneFrame)
}

pub fn status(frame: &[u8]) -> Answer<[u8; 6]> {
    Ok(bytes_at(whole(frame)?, 4))
}

pub fn set_bits(frame: &[u8]) -> Answer<u32> {
    let status = u64::from_le_bytes(bytes_at(whole(frame)?, 4));
    Ok((status & ((1 << 42) - 1)).count_ones())
}

pub fn clock(frame: &[u8]) -> Answer<Clock> {
    Ok(binary_clock(bytes_at(whole(frame)?, 41), 1970, 255))
}

pub fn voltages(frame: &[u8]) -> Answer<Voltages> {
    let [input, filtered] = bytes_at(whole(frame)?, 14);
    Ok(Voltages { input, filtered })
}

pub fn accelerations(frame: &[u8]) -> Answer<Axes> {
    axes(frame, 18)
}

pub fn gyros(frame: &[u8]) -> Answer<Axes> {
    axes(frame, 24)
}

fn axes(frame: &[u8], at: usize) -> Answer<Axes> {
    let frame = whole(frame)?;
    let [x, y, z] = [at, at + 2, at + 4].map(|at| i16::from_le_bytes(bytes_at(frame, at)));
    Ok(Axes { x, y, z })
}

pub fn pressure(frame: &[u8]) -> Answer<u32> {
    Ok(u32::from(u16::from_le_bytes(bytes_at(whole(frame)?, 38))) * 2)
}

pub fn fix(frame: &[u8]) -> Answer<Fix> {
    let byte = whole(frame)?[40];
    match byte % 8 {
        1 | 5..=7 => Err(Refusal::OutOfForm),
        fix => Ok(Fix { fix, satellites: byte / 8 }),
    }
}

pub fn gnss_position(frame: &[u8]) -> Answer<Position> {
    position(frame, 60)
}

pub fn ins_position(frame: &[u8]) -> Answer<Position> {
    position(frame, 116)
}

fn position(frame: &[u8], at: usize) -> Answer<Position> {
    let frame = whole(frame)?;
    let [latitude, longitude] = [at, at + 4].map(|at| i32::from_le_bytes(bytes_at(frame, at)));
    Ok(Position { latitude, longitude })
}

pub fn gnss_altitude(frame: &[u8]) -> Answer<i32> {
    altitude(frame, 56)
}

pub fn ins_altitude(frame: &[u8]) -> Answer<i32> {
    altitude(frame, 114)
}

fn altitude(frame: &[u8], at: usize) -> Answer<i32> {
    Ok(i32::from(u16::from_le_bytes(bytes_at(whole(frame)?, at))) - 10_000)
}
