//! The writers: a frame, or a refusal.

use super::shape::permitted;
use super::{frame, plars, MGL, NMEA, ONFLIGHT};

/// The whole frame of a body, or 5, or 6 where it is longer than the output. The header's bytes are given low first.
pub fn write(format: u32, header: u32, body: &[u8], out: usize) -> Result<Vec<u8>, u32> {
    let frame = match format {
        MGL if (12..=264).contains(&body.len()) && body.len() % 4 == 0 => frame::mgl(header.to_le_bytes(), body),
        ONFLIGHT if body.len() == 152 => frame::onflight(body),
        NMEA if (1..=76).contains(&body.len()) && body.iter().all(|byte| permitted(*byte)) => frame::nmea(body),
        _ => return Err(5),
    };
    fitting(frame, out)
}

/// The sentence of a setting, or 9, or 6.
pub fn write_setting(source: u8, parameter: u8, value: u32, out: usize) -> Result<Vec<u8>, u32> {
    fitting(frame::nmea(&plars::body(source, parameter, value)?), out)
}

fn fitting(frame: Vec<u8>, out: usize) -> Result<Vec<u8>, u32> {
    if frame.len() <= out {
        Ok(frame)
    } else {
        Err(6)
    }
}
