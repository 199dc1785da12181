//! Calls on any reader bytes: random ones, real ones, and real ones with something changed.

use crate::calls;
use crate::generate::{self, prng::Prng};
use crate::oracle::reader::{Call, State, HELD, HELD_AT, LEN, MOST};
use crate::oracle::shape::{shape, Shape};
use crate::oracle::FORMATS;
use crate::run::Run;

/// All states of a round.
pub fn compare(run: &mut Run) {
    for _ in 0..120 {
        let mut reader = any_reader(&mut run.rng);
        reasons(run, &reader);
        for _ in 0..run.rng.range(1, 3) {
            any_call(run, &mut reader);
        }
    }
    for _ in 0..4 {
        let format = run.rng.pick(&[0, 1, 2, 3, 4, 256, 257, u32::MAX]);
        let before = any_reader(&mut run.rng);
        calls::fresh(run, format, &before);
    }
}

/// The bytes of some reader.
fn any_reader(rng: &mut Prng) -> Vec<u8> {
    match rng.below(10) {
        0 => rng.bytes(LEN),
        1 => other_length(rng),
        2 => near_limit(rng).encode(),
        3..=6 => changed(rng).encode(),
        7 => byte_changed(rng),
        _ => real(rng).encode(),
    }
}

/// Bytes of another length than a reader has.
fn other_length(rng: &mut Prng) -> Vec<u8> {
    let mut bytes = real(rng).encode();
    let length = rng.pick(&[0, 1, 4, 19, 20, LEN - 1, LEN + 1, 2 * LEN]);
    bytes.resize(length, 0);
    bytes
}

/// A reader with bytes pending and any counts.
fn real(rng: &mut Prng) -> State {
    let format = rng.pick(&FORMATS);
    let length = rng.length(400);
    let bytes = if rng.one_in(3) { generate::frame(rng, format) } else { generate::capture(rng, format, length) };
    let start = start_in(rng, format, &bytes);
    let (framed, skipped) = (rng.below(1 << 20) as u32, rng.below(1 << 20) as u32);
    State { format, closed: false, framed, skipped, pending: start.len() as u32, held: start }
}

/// A proper start somewhere in bytes, or none.
fn start_in(rng: &mut Prng, format: u32, bytes: &[u8]) -> Vec<u8> {
    let starts: Vec<usize> = (0..bytes.len()).filter(|at| shape(format, &bytes[*at..]) != Shape::Broken).collect();
    if starts.is_empty() || rng.one_in(6) {
        return vec![];
    }
    let from = rng.pick(&starts);
    let most = match shape(format, &bytes[from..]) {
        Shape::Whole(length) => length - 1,
        _ => bytes.len() - from,
    };
    let length = if rng.one_in(3) { most } else { rng.length(most + 1) };
    bytes[from..from + length].to_vec()
}

/// A reader whose counts are together at the limit, or a little below or over.
fn near_limit(rng: &mut Prng) -> State {
    let mut state = real(rng);
    let below = rng.pick(&[0, 0, 1, 2, 10, 4096]);
    let rest = (MOST - below - u64::from(state.pending)) as u32;
    state.framed = if rng.one_in(2) { rng.below(u64::from(rest) + 1) as u32 } else { rng.pick(&[0, rest]) };
    state.skipped = rest - state.framed;
    if rng.one_in(3) {
        state.skipped = state.skipped.saturating_add(rng.pick(&[1, 2, 4096]));
    }
    state
}

/// A reader with a field or a pending byte changed, or with held bytes beyond pending.
fn changed(rng: &mut Prng) -> State {
    let mut state = real(rng);
    match rng.below(7) {
        0 => state.format = rng.pick(&[0, 1, 2, 3, 4, 5, 255, 256, 257, 513, u32::MAX]),
        1 => state.closed = true,
        2 => {
            state.closed = true;
            state.pending = 0;
        }
        3 => state.pending = rng.pick(&[1, 80, 81, 82, 157, 158, 274, 275, 276, 1000, u32::MAX]),
        4 => state.pending = state.pending.saturating_add(rng.pick(&[1, 2])),
        5 => {
            let beyond = rng.length(HELD + 1 - state.held.len().min(HELD));
            state.held.extend(rng.bytes(beyond));
        }
        _ if !state.held.is_empty() => {
            let at = rng.length(state.held.len());
            state.held[at] = rng.byte();
        }
        _ => state.skipped = u32::MAX,
    }
    state.held.truncate(HELD);
    state
}

/// A reader with any byte changed, the words' high bytes and a closed word over 1 among them.
fn byte_changed(rng: &mut Prng) -> Vec<u8> {
    let mut bytes = real(rng).encode();
    let at = match rng.below(4) {
        0 => rng.length(LEN),
        1 => 4 + rng.length(4),
        _ => rng.length(HELD_AT),
    };
    bytes[at] = rng.byte();
    bytes
}

/// A piece or a close, with an output about as large as it has to be.
fn any_call(run: &mut Run, reader: &mut Vec<u8>) {
    let rng = &mut run.rng;
    let (format, pending) = State::decode(reader).map_or((1, 0), |state| (state.format, state.pending.min(300)));
    let length = rng.pick(&[0, 0, 1, 2, 40, 300]);
    let mut piece = generate::capture(rng, format, length);
    if rng.one_in(8) {
        let whole = rng.pick(&[4095, 4096, 4096, 4097, 9000]);
        piece.resize(whole, 0);
    }
    let call = if rng.one_in(3) { Call::Close } else { Call::Piece(&piece) };
    let needed = pending as usize + call.bytes().len();
    let out = match rng.below(4) {
        0 => (needed + rng.length(3)).saturating_sub(1),
        1 => rng.length(needed + 1),
        _ => needed,
    };
    calls::serve(run, reader, call, out);
}

/// Counts by which of refusal 11's reasons the bytes are no reader.
fn reasons(run: &mut Run, reader: &[u8]) {
    let mut add = |name, holds: bool| run.tally.add(name, 1, holds.into());
    let Some(state) = State::decode(reader) else { return add("broken reader: other length", true) };
    let bound = match state.format {
        1 => 275,
        2 => 157,
        3 => 81,
        _ => return add("broken reader: unknown format", true),
    };
    add("broken reader: numbers over limit", state.total() > MOST);
    add("broken reader: closed with pending", state.closed && state.pending > 0);
    if state.pending > bound {
        add("broken reader: pending over bound", true);
    } else {
        let start = shape(state.format, &state.held[..state.pending as usize]);
        add("broken reader: pending no start", start != Shape::Start);
    }
}
