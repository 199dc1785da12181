//! The length of the frame that bytes begin with, and frames one by one.

use crate::generate::{self, damage};
use crate::oracle::shape::{frame_len, front, Front};
use crate::oracle::FORMATS;
use crate::raw;
use crate::run::{Given, Run};
use crate::typed;

/// Numbers of no format, some with the low bytes of a format's.
const UNKNOWN: [u32; 8] = [0, 4, 255, 256 + 1, 512 + 2, 65_536 + 3, 1 << 31, u32::MAX];

/// All first frames of a round.
pub fn compare(run: &mut Run) {
    for format in FORMATS {
        all_prefixes(run, format);
    }
    for _ in 0..100 {
        let format = run.rng.pick(&FORMATS);
        let bytes = some_bytes(run, format);
        let unknown = run.rng.pick(&UNKNOWN);
        for asked in [1, 2, 3, unknown] {
            length(run, asked, &bytes);
        }
        one_by_one(run, format, &bytes);
    }
}

/// A good frame with bytes behind it, cut at every place: no bytes, proper starts, the frame, and more.
fn all_prefixes(run: &mut Run, format: u32) {
    let mut bytes = generate::frame(&mut run.rng, format);
    bytes.extend(generate::crumbs(&mut run.rng, format, 4));
    for end in 0..=bytes.len() {
        length(run, format, &bytes[..end]);
    }
    let unknown = run.rng.pick(&UNKNOWN);
    length(run, unknown, &[]);
    length(run, unknown, &bytes);
}

/// Good frames with anything behind them, a damaged frame before good ones, a changed byte, or noise.
fn some_bytes(run: &mut Run, format: u32) -> Vec<u8> {
    let rng = &mut run.rng;
    let size = rng.pick(&[0, 0, 1, 100, 600]);
    let mut bytes = match rng.below(6) {
        0 => damage::stretch(rng, format),
        1 => vec![],
        _ => generate::frame(rng, format),
    };
    if rng.one_in(6) && !bytes.is_empty() {
        let at = rng.length(bytes.len());
        bytes[at] ^= 1 << rng.below(8);
    }
    bytes.extend(generate::capture(rng, format, size));
    bytes
}

fn length(run: &mut Run, format: u32, bytes: &[u8]) {
    let expected = frame_len(format, bytes);
    let given = [Given::Number("format", format.into()), Given::Bytes("bytes", bytes)];
    run.same("frame length", &given, raw::frame_len(format, bytes), expected);
    run.tally.call("frame length", 0, bytes.len());
    if !FORMATS.contains(&format) {
        return run.tally.add("frame length: unknown format", 1, 1);
    }
    run.same("typed frame length", &given, typed::frame_len(format, bytes), expected);
    let kind = match front(format, bytes) {
        Front::Frame(_) => "frame length: frame, format",
        Front::Start => "frame length: start, format",
        Front::Neither => "frame length: neither, format",
    };
    run.tally.add(kind, format, 1);
}

/// The frames that bytes begin with, up to the first byte that begins none.
fn one_by_one(run: &mut Run, format: u32, bytes: &[u8]) {
    let mut wanted = vec![];
    let mut rest = bytes;
    while frame_len(format, rest) > 0 {
        let (frame, after) = rest.split_at(frame_len(format, rest));
        wanted.push(frame);
        rest = after;
    }
    let given = [Given::Number("format", format.into()), Given::Bytes("bytes", bytes)];
    run.same("frames one by one", &given, typed::frames(format, bytes).collect(), wanted);
}
