//! The fields of MGL frames. A function judges the frame, and one of the same name with `_of` takes a whole frame. The
//! latter has two callers, and is inlined to both.

use super::{binary_clock, bytes_at, judge, Answer};
use crate::rules::Mgl;
use blossomaxle::mgl::{Gps, Header, Tank};
use blossomaxle::{Clock, Refusal};

pub fn header(frame: &[u8]) -> Answer<Header> {
    judge::<Mgl>(frame)?;
    header_of(frame)
}

#[inline(always)]
pub fn header_of(frame: &[u8]) -> Answer<Header> {
    let [message_type, rate, count, version] = bytes_at(frame, 4);
    Ok(Header { message_type, rate, count, version })
}

/// A frame of this message type, version 1 and this length.
fn message<const LEN: usize>(frame: &[u8], kind: u8) -> Answer<&[u8; LEN]> {
    match <&[u8; LEN]>::try_from(frame) {
        Ok(frame) if frame[4] == kind && frame[7] == 1 => Ok(frame),
        _ => Err(Refusal::OtherMessage),
    }
}

pub fn clock(frame: &[u8]) -> Answer<Clock> {
    judge::<Mgl>(frame)?;
    clock_of(frame)
}

#[inline(always)]
pub fn clock_of(frame: &[u8]) -> Answer<Clock> {
    let frame = message::<44>(frame, 1)?;
    let [hour, minute, second, day, month, year] = bytes_at(frame, 32);
    Ok(binary_clock([year, month, day, hour, minute, second], 2000, 99))
}

pub fn gps(frame: &[u8]) -> Answer<Gps> {
    judge::<Mgl>(frame)?;
    gps_of(frame)
}

#[inline(always)]
pub fn gps_of(frame: &[u8]) -> Answer<Gps> {
    let frame = message::<56>(frame, 2)?;
    let [mode, tracked, visible, horizontal_accuracy, vertical_accuracy, capability] = bytes_at(frame, 42);
    if mode > 5 {
        return Err(Refusal::OutOfForm);
    }
    Ok(Gps {
        latitude: i32::from_le_bytes(bytes_at(frame, 8)),
        longitude: i32::from_le_bytes(bytes_at(frame, 12)),
        altitude: i32::from_le_bytes(bytes_at(frame, 16)),
        agl: i32::from_le_bytes(bytes_at(frame, 20)),
        north: i32::from_le_bytes(bytes_at(frame, 24)),
        east: i32::from_le_bytes(bytes_at(frame, 28)),
        down: i32::from_le_bytes(bytes_at(frame, 32)),
        ground_speed: u16::from_le_bytes(bytes_at(frame, 36)),
        track: u16::from_le_bytes(bytes_at(frame, 38)),
        variation: i16::from_le_bytes(bytes_at(frame, 40)),
        mode,
        tracked,
        visible,
        horizontal_accuracy,
        vertical_accuracy,
        capability,
        raim: frame[48],
        raim_horizontal_error: frame[49],
        raim_vertical_error: frame[50],
        valid: mode != 0,
        altitude_valid: mode == 3 || mode == 5,
    })
}

/// The tanks of a fuel message.
fn tanks(frame: &[u8]) -> Answer<&[u8]> {
    // A body has 9 to 264 bytes, so that this one has 12 to 260.
    if frame[4] != 11 || frame[7] != 1 || frame.len() % 8 != 0 {
        return Err(Refusal::OtherMessage);
    }
    let tanks = &frame[12..frame.len() - 4];
    if u32::from_le_bytes(bytes_at(frame, 8)) as usize != tanks.len() / 8 {
        return Err(Refusal::OutOfForm);
    }
    Ok(tanks)
}

pub fn fuel_count(frame: &[u8]) -> Answer<u32> {
    judge::<Mgl>(frame)?;
    fuel_count_of(frame)
}

#[inline(always)]
pub fn fuel_count_of(frame: &[u8]) -> Answer<u32> {
    Ok((tanks(frame)?.len() / 8) as u32)
}

pub fn fuel_tank(frame: &[u8], item: u32) -> Answer<Tank> {
    judge::<Mgl>(frame)?;
    fuel_tank_of(frame, item)
}

#[inline(always)]
pub fn fuel_tank_of(frame: &[u8], item: u32) -> Answer<Tank> {
    let tank = tanks(frame)?.chunks_exact(8).nth(item as usize).ok_or(Refusal::OutOfForm)?;
    Ok(Tank {
        level: i32::from_le_bytes(bytes_at(tank, 0)),
        kind: tank[4],
        on: tank[5],
        sensors: u16::from_le_bytes(bytes_at(tank, 6)),
    })
}
