//! A generator of captures: good frames of each format, damaged ones, and noise between them.

pub mod damage;
pub mod mgl;
pub mod nmea;
pub mod onflight;
pub mod prng;

use crate::oracle::frame::nmea as sentence;
use crate::oracle::{MGL, NMEA, ONFLIGHT};
use prng::Prng;

/// A good frame of a format: any content, or fields as a unit would send them, or nearly so.
pub fn frame(rng: &mut Prng, format: u32) -> Vec<u8> {
    match format {
        MGL => mgl::frame(rng),
        ONFLIGHT => onflight::frame(rng),
        _ => nmea::frame(rng),
    }
}

/// A capture of at least some bytes; most of its frames are good if it is sound, and few if it is not.
pub fn capture(rng: &mut Prng, format: u32, length: usize) -> Vec<u8> {
    let good_in_eight = rng.pick(&[0, 2, 4, 6, 7]);
    let mut bytes = vec![];
    while bytes.len() < length {
        if rng.below(8) < good_in_eight {
            bytes.extend(frame(rng, format));
        } else {
            bytes.extend(damage::stretch(rng, format));
        }
    }
    bytes
}

/// A few bytes of those that matter most to a format, so that short captures come near to frames.
pub fn crumbs(rng: &mut Prng, format: u32, length: usize) -> Vec<u8> {
    let alphabet: &[u8] = match format {
        MGL => &[0x05, 0x05, 0x05, 0x02, 0x02, 0x02, 0x00, 0xFF, 0x01, 0xFE],
        ONFLIGHT => &[0x42, 0x42, 0x42, 0x46, 0x46, 0x46, 0x01, 0x01, 0x98, 0x98, 0x00],
        _ => b"$$$AA**4141F\r\r\n\n,~ ",
    };
    (0..length).map(|_| rng.pick(alphabet)).collect()
}

/// A capture of at most ten bytes; where a frame is as short, it has one as often as not.
pub fn short_capture(rng: &mut Prng, format: u32) -> Vec<u8> {
    if format == NMEA && rng.one_in(2) {
        let length = rng.length(4);
        let before = crumbs(rng, format, length);
        return [before, sentence(&[rng.range(0x2B, 0x7E) as u8])].concat();
    }
    let length = rng.range(1, 9) as usize;
    crumbs(rng, format, length)
}

/// A date and a time of day as bytes year, month, day, hour, minute, second: mostly one that exists, often at a limit.
pub fn date(rng: &mut Prng, years: u64) -> [u8; 6] {
    if rng.one_in(12) {
        return [0; 6];
    }
    let least = [0, 1, 1, 0, 0, 0];
    let most = [(years - 1) as u8, 12, 31, 23, 59, 59];
    let mut fields: [u8; 6] = std::array::from_fn(|k| rng.range(least[k], most[k].into()) as u8);
    if rng.one_in(4) {
        fields[1] = 2;
        fields[2] = rng.range(27, 30) as u8;
    }
    if rng.one_in(3) {
        let field = rng.length(6);
        let past = most[field].saturating_add(1);
        fields[field] = rng.pick(&[0, most[field], past, past, past.saturating_add(4), 30, 99, 100, 104, 255]);
    }
    fields
}
