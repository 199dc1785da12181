//! The library's reader, the hand-written one and plain copying, on the same pieces in the same output.

use crate::captures::{self, Worst};
use crate::plain;
use crate::report::{self, Goal};
use crate::rules::{Mgl, Nmea, OnFlight, Rules};
use crate::timing::medians;
use blossomaxle::{Reader, Refusal, MAX_OUTPUT};
use std::hint::black_box;

/// So much is read of the worst lines, and of all in pieces of one byte.
pub const PREFIX: usize = 1_000_000;

pub const PIECES: [usize; 4] = [4096, 512, 64, 1];

/// Measures lines of so many bytes of every format.
pub fn measure(size: usize) {
    report::readers_head(PREFIX.min(size));
    measure_format::<Mgl>("MGL", size);
    measure_format::<OnFlight>("OnFlight", size);
    measure_format::<Nmea>("NMEA", size);
}

fn measure_format<F: Rules>(format: &str, size: usize) {
    for (name, line) in &lines::<F>(size) {
        for piece in PIECES {
            let speeds = speeds::<F>(name, part(line, piece), piece);
            report::readers_row(&format!("{format} {name}"), piece, &speeds, goal(name, piece), "");
        }
    }
    let worst = captures::worst(F::FORMAT, PREFIX.min(size));
    for piece in PIECES {
        let worst = slowest::<F>(&worst, piece);
        let speeds = speeds::<F>("worst", &worst.line, piece);
        report::readers_row(&format!("{format} worst"), piece, &speeds, None, worst.unit);
    }
}

/// The lines that goals are about, by their names.
pub fn lines<F: Rules>(size: usize) -> [(&'static str, Vec<u8>); 3] {
    [
        ("clean", captures::clean(F::FORMAT, size)),
        ("damaged", captures::damaged(F::FORMAT, size)),
        ("noise", captures::noise(size)),
    ]
}

/// So much of a line as is read in pieces of this length.
pub fn part(line: &[u8], piece: usize) -> &[u8] {
    if piece == 1 {
        &line[..line.len().min(PREFIX)]
    } else {
        line
    }
}

/// What the project wants of the library beside the hand-written reader.
pub fn goal(name: &str, piece: usize) -> Goal {
    match (name, piece) {
        ("clean", 4096) => Some(1.0),
        (_, 4096 | 512) => Some(0.8),
        ("noise", 64) => Some(0.9),
        (_, 64) => Some(0.8),
        ("clean", 1) => Some(0.6),
        _ => None,
    }
}

/// The line that takes the library longest in pieces of this length, judged by a part of each.
fn slowest<F: Rules>(lines: &[Worst], piece: usize) -> &Worst {
    let mut out = [0; MAX_OUTPUT];
    let mut seconds = |line: &[u8]| medians(1, |_| by_library::<F>(&line[..line.len() / 8], piece, &mut out))[0];
    let timed = lines.iter().map(|worst| (seconds(&worst.line), worst));
    timed.max_by(|(one, _), (other, _)| one.total_cmp(other)).expect("every format has a worst line").1
}

/// Bytes a second by the library, the hand-written reader and copying, after both readers were compared.
fn speeds<F: Rules>(name: &str, line: &[u8], piece: usize) -> Vec<f64> {
    compare::<F>(name, line, piece);
    let mut out = [0; MAX_OUTPUT];
    let times = medians(3, |task| match task {
        0 => by_library::<F>(line, piece, &mut out),
        1 => by_hand::<F>(line, piece, &mut out),
        _ => by_copying(line, piece, &mut out),
    });
    times.iter().map(|time| line.len() as f64 / time).collect()
}

fn fresh<F: Rules>() -> Reader {
    Reader::fresh(F::FORMAT).expect("the library knows the format")
}

fn by_library<F: Rules>(line: &[u8], piece: usize, out: &mut [u8; MAX_OUTPUT]) {
    let mut reader = fresh::<F>();
    each(line, piece, out, |piece, out| reader.piece(piece, out));
}

pub fn by_hand<F: Rules>(line: &[u8], piece: usize, out: &mut [u8; MAX_OUTPUT]) {
    let mut reader = plain::Reader::<F>::fresh();
    each(line, piece, out, |piece, out| reader.piece(piece, out));
}

fn by_copying(line: &[u8], piece: usize, out: &mut [u8; MAX_OUTPUT]) {
    each(line, piece, out, |piece, out| out[..piece.len()].copy_from_slice(piece));
}

/// Does the work on each piece; no answer and no output goes unused. The answer is lent to `black_box`, since a copy of
/// it would take time.
pub fn each<T>(
    line: &[u8],
    piece: usize,
    out: &mut [u8; MAX_OUTPUT],
    mut work: impl FnMut(&[u8], &mut [u8; MAX_OUTPUT]) -> T,
) {
    for piece in line.chunks(piece) {
        black_box(&work(piece, out));
        black_box(&mut *out);
    }
}

/// Stops the program unless both readers answer, copy and count the same at each piece and at the close.
fn compare<F: Rules>(name: &str, line: &[u8], piece: usize) {
    let (mut library, mut written) = (fresh::<F>(), plain::Reader::<F>::fresh());
    let (mut out, mut other) = ([0; MAX_OUTPUT], [0; MAX_OUTPUT]);
    for (i, bytes) in line.chunks(piece).map(Some).chain([None]).enumerate() {
        let answers = match bytes {
            Some(bytes) => (library.piece(bytes, &mut out), written.piece(bytes, &mut other)),
            None => (library.close(&mut out), written.close(&mut other)),
        };
        let counts = library.counts();
        let same = answers.0.map_err(Refusal::number) == answers.1
            && answers.1.is_ok_and(|laid| out[..laid] == other[..laid])
            && [counts.framed, counts.skipped, counts.pending] == written.counts();
        let format = F::FORMAT;
        assert!(
            same,
            "{format:?} {name}, call {i} with pieces of {piece}: the readers differ: {answers:?}, {counts:?}"
        );
    }
}
