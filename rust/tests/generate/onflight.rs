//! OnFlight frames.

use super::date;
use super::prng::Prng;
use crate::oracle::frame;

/// A good frame: any payload, one with few set bytes, or one of start bytes, mostly with a clock.
pub fn frame(rng: &mut Prng) -> Vec<u8> {
    let mut payload = match rng.below(6) {
        0 => vec![rng.pick(&[0x00, 0x01, 0x7F, 0x80, 0xFF]); 152],
        1 => (0..152).map(|_| rng.pick(&[0x42, 0x46, 0x01, 0x98])).collect(),
        2 => sparse(rng),
        _ => rng.bytes(152),
    };
    if !rng.one_in(6) {
        payload[37..43].copy_from_slice(&date(rng, 256));
    }
    frame::onflight(&payload)
}

fn sparse(rng: &mut Prng) -> Vec<u8> {
    let mut payload = vec![0; 152];
    for _ in 0..rng.range(1, 8) {
        let at = rng.length(152);
        payload[at] = rng.byte();
    }
    payload
}

/// A whole shape whose plain sum is 0 and which stores FF for it: never a frame.
pub fn stored_ff(rng: &mut Prng) -> Vec<u8> {
    let mut payload = rng.bytes(152);
    payload[151] = 0;
    let plain = frame::onflight(&payload)[156];
    payload[151] = 255 - plain;
    let mut shape = frame::onflight(&payload);
    shape[156] = 0xFF;
    shape
}
