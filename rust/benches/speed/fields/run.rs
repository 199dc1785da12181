//! Whether bytes are one whole frame, judged as the library does it: by one function for all formats, which finds the
//! frames that a line begins with and is not inlined. In the library's language no function can be marked for inlining,
//! and one that is called at many places is not.

use crate::rules::{Look, Mgl, Nmea, OnFlight, Rules};
use blossomaxle::Format;
use std::hint::black_box;

/// The frames that a line begins with: their bytes, how many they are, and whether what follows may become one, which
/// no function here asks.
#[allow(dead_code)]
struct Run {
    bytes: usize,
    frames: usize,
    waits: bool,
}

/// Whether bytes are one whole frame. `black_box` hides that one frame is looked for.
pub fn is_frame(format: Format, bytes: &[u8]) -> bool {
    let run = frame_run(format, bytes, black_box(1));
    run.frames == 1 && run.bytes == bytes.len()
}

#[inline(never)]
fn frame_run(format: Format, line: &[u8], most: usize) -> Run {
    match format {
        Format::Mgl => run_of::<Mgl>(line, most),
        Format::OnFlight => run_of::<OnFlight>(line, most),
        Format::Nmea => run_of::<Nmea>(line, most),
    }
}

/// At most so many frames, up to a place where none begins.
#[inline(always)]
fn run_of<F: Rules>(line: &[u8], most: usize) -> Run {
    let (mut bytes, mut more) = (0, most);
    let waits = loop {
        if more == 0 {
            break false;
        }
        match look::<F>(&line[bytes..]) {
            Look::Frame(len) => (bytes, more) = (bytes + len, more - 1),
            Look::More => break true,
            Look::No => break false,
        }
    };
    Run { bytes, frames: most - more, waits }
}

/// What any bytes begin with.
#[inline(always)]
fn look<F: Rules>(bytes: &[u8]) -> Look {
    match bytes.first() {
        Some(&byte) if byte == F::START => F::look(bytes),
        Some(_) => Look::No,
        None => Look::More,
    }
}
