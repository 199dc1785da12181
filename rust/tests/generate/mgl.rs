//! MGL frames.

use super::date;
use super::prng::Prng;
use crate::oracle::frame;

/// A good frame with any content, or of one of the messages that are read.
pub fn frame(rng: &mut Prng) -> Vec<u8> {
    match rng.below(8) {
        0 | 1 => gps(rng),
        2 | 3 => fuel(rng),
        4 | 5 => clock(rng),
        6 => short(rng),
        _ => any(rng),
    }
}

/// Any body: every L, 0 too.
fn any(rng: &mut Prng) -> Vec<u8> {
    let size = rng.range(9, 264) as usize;
    let body = rng.bytes(size);
    frame::mgl([rng.byte(), rng.byte(), rng.byte(), rng.byte()], &body)
}

/// A short body of start bytes.
fn short(rng: &mut Prng) -> Vec<u8> {
    let size = rng.range(9, 20) as usize;
    let body: Vec<u8> = (0..size).map(|_| rng.pick(&[0x05, 0x02, 0x01, 0xFE])).collect();
    frame::mgl([0x05, 0x02, 0x01, 0xFE], &body)
}

/// A message in a version and a size that are mostly the right ones.
fn message(rng: &mut Prng, kind: u8, mut body: Vec<u8>) -> Vec<u8> {
    let kind = if rng.one_in(16) { rng.byte() } else { kind };
    let version = if rng.one_in(16) { rng.byte() } else { 1 };
    if rng.one_in(16) {
        let size = (body.len() + rng.length(9)).saturating_sub(4).clamp(9, 264);
        body.resize(size, 0);
    }
    frame::mgl([kind, rng.byte(), rng.byte(), version], &body)
}

fn gps(rng: &mut Prng) -> Vec<u8> {
    let mut body = rng.bytes(44);
    body[34] = if rng.one_in(6) { rng.byte() } else { rng.below(7) as u8 };
    message(rng, 2, body)
}

/// A fuel message; the number of tanks in it is mostly right.
fn fuel(rng: &mut Prng) -> Vec<u8> {
    let tanks = if rng.one_in(4) { rng.range(1, 32) } else { rng.pick(&[1, 2, 3, 4, 31, 32]) } as usize;
    let mut body = rng.bytes(4 + 8 * tanks);
    body[..4].copy_from_slice(&(tanks as u32).to_le_bytes());
    if rng.one_in(6) {
        let wrong = rng.length(4);
        body[wrong] ^= rng.pick(&[1, 2, 0x80, 0xFF]);
    }
    message(rng, 11, body)
}

fn clock(rng: &mut Prng) -> Vec<u8> {
    let mut body = rng.bytes(32);
    let [year, month, day, hour, minute, second] = date(rng, 100);
    body[24..30].copy_from_slice(&[hour, minute, second, day, month, year]);
    message(rng, 1, body)
}
