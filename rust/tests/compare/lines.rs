//! Lists of calls on a fresh reader, compared with the plain machine.

use crate::calls;
use crate::generate;
use crate::oracle::machine::Machine;
use crate::oracle::reader::{Call, State, HELD, LEN, LONGEST_PIECE};
use crate::oracle::shape::is_frame;
use crate::oracle::FORMATS;
use crate::run::{Given, Run};
use crate::typed;

/// A line on its way: the library's reader, and the machine that is fed the same calls.
struct Line<'a> {
    run: &'a mut Run,
    format: u32,
    reader: Vec<u8>,
    machine: Machine,
    handed: Vec<u8>,
    frames: u64,
    /// Whether the machine judges every call, and not only now and then: it reads all bytes again each time.
    each: bool,
}

/// All lists of a round.
pub fn compare(run: &mut Run) {
    for format in FORMATS {
        all_choppings(run, format);
        all_cuts(run, format);
        any_lists(run, format);
    }
    let format = run.rng.pick(&FORMATS);
    long_line(run, format);
}

/// A short capture in every way to divide it.
fn all_choppings(run: &mut Run, format: u32) {
    let bytes = generate::short_capture(&mut run.rng, format);
    let length = bytes.len();
    for mask in 0..1u32 << (length - 1) {
        let cuts: Vec<usize> = (1..length).filter(|at| mask >> (at - 1) & 1 == 1).collect();
        chopped(run, format, &bytes, &cuts);
    }
}

/// A capture of a few frames at most, cut once or twice in every way.
fn all_cuts(run: &mut Run, format: u32) {
    let length = run.rng.range(1, 40) as usize;
    let mut bytes = generate::capture(&mut run.rng, format, length);
    bytes.truncate(400);
    for first in 0..bytes.len() {
        chopped(run, format, &bytes, &[first]);
        let second = first + run.rng.length(bytes.len() - first);
        chopped(run, format, &bytes, &[first, second]);
    }
}

/// The pieces between cuts, and a close.
fn chopped(run: &mut Run, format: u32, bytes: &[u8], cuts: &[usize]) {
    let mut line = Line::fresh(run, format, true);
    let starts = [&[0], cuts].concat();
    let ends = [cuts, &[bytes.len()]].concat();
    for (start, end) in starts.into_iter().zip(ends) {
        line.piece(&bytes[start..end]);
    }
    line.close();
}

/// Captures of some frames in pieces of any size, with refused calls in between.
fn any_lists(run: &mut Run, format: u32) {
    for _ in 0..3 {
        let length = run.rng.length(900);
        let bytes = generate::capture(&mut run.rng, format, length);
        let most = run.rng.pick(&[2, 9, 60, 300, 2000]);
        Line::fresh(run, format, true).run_through(&bytes, most);
    }
}

/// A long capture, with the machine at a few places.
fn long_line(run: &mut Run, format: u32) {
    let length = run.rng.range(10_000, 40_000) as usize;
    let bytes = generate::capture(&mut run.rng, format, length);
    let most = run.rng.pick(&[8, 30, 300, 4096, 4096]);
    Line::fresh(run, format, false).run_through(&bytes, most);
}

impl<'a> Line<'a> {
    fn fresh(run: &'a mut Run, format: u32, each: bool) -> Line<'a> {
        let before = vec![run.rng.byte(); LEN];
        let reader = calls::fresh(run, format, &before);
        run.tally.add("lists of calls, format", format, 1);
        Line { run, format, reader, machine: Machine::new(format), handed: vec![], frames: 0, each }
    }

    /// Feeds a capture in pieces up to some bytes, closes, and goes on calling.
    fn run_through(mut self, bytes: &[u8], most: usize) {
        let mut rest = bytes;
        while !rest.is_empty() {
            let whole = most == LONGEST_PIECE && self.run.rng.one_in(2);
            let length = if whole { most } else { self.run.rng.length(most + 1) };
            let (piece, after) = rest.split_at(length.min(rest.len()));
            self.piece(piece);
            rest = after;
            if self.run.rng.one_in(6) {
                self.nuisance();
            }
            if self.run.rng.below(2000) < piece.len() as u64 / 16 {
                self.check();
            }
        }
        self.check();
        self.close();
        self.check();
        for _ in 0..self.run.rng.below(4) {
            self.nuisance();
        }
    }

    /// A piece with an output that is just enough, or somewhat more.
    fn piece(&mut self, piece: &[u8]) {
        let out = self.needed(piece.len()) + self.more();
        self.call(Call::Piece(piece), out);
    }

    fn close(&mut self) {
        let out = self.needed(0) + self.more();
        self.call(Call::Close, out);
    }

    /// A call that is refused: a piece that is too long, an output that is too small, or anything after the close.
    fn nuisance(&mut self) {
        let rng = &mut self.run.rng;
        let too_long = rng.one_in(3);
        let length = if too_long { rng.pick(&[4097, 5000]) } else { rng.pick(&[0, 1, 5, 100, 4096]) };
        let piece = vec![rng.byte(); length];
        let call = if !too_long && rng.one_in(3) { Call::Close } else { Call::Piece(&piece) };
        let needed = self.needed(call.bytes().len());
        let rng = &mut self.run.rng;
        let out = if too_long && rng.one_in(2) { needed } else { rng.length(needed.max(1)) };
        if too_long || out < needed || self.state().closed {
            self.call(call, out);
        }
    }

    fn call(&mut self, call: Call, out: usize) {
        let judged = self.each.then(|| self.machine.judge(call, out));
        let outcome = calls::serve(self.run, &mut self.reader, call, out);
        if let Some(judged) = judged {
            let given = [Given::Bytes("delivered", self.machine.delivered()), Given::Bytes("piece", call.bytes())];
            self.run.same("the machine's answer", &given, outcome.number, judged);
        }
        if outcome.number == 0 {
            self.machine.accept(call);
            self.handed.extend(outcome.handed);
            self.frames += outcome.frames;
        }
        if self.each {
            self.check();
        }
    }

    /// Counts and frames are those of the machine's reading of all bytes.
    fn check(&self) {
        let reading = self.machine.reading();
        let state = self.state();
        let delivered = self.machine.delivered();
        let given = [Given::Number("format", self.format.into()), Given::Bytes("delivered", delivered)];
        let numbers = (u64::from(state.framed), u64::from(state.skipped), u64::from(state.pending), self.frames);
        let wanted = (reading.frames.len() as u64, reading.skipped as u64, reading.pending as u64, reading.count);
        self.run.same("framed, skipped, pending and frames of a line", &given, numbers, wanted);
        self.run.same("all bytes of a line", &given, state.total(), delivered.len() as u64);
        self.run.same_bytes("the frames of a line", &given, &self.handed, &reading.frames);
        let single = typed::frames(self.format, &self.handed).filter(|frame| is_frame(self.format, frame)).count();
        self.run.same("the frames of a line, one by one", &given, single as u64, reading.count);
    }

    fn state(&self) -> State {
        State::decode(&self.reader).expect("as many bytes as a reader has")
    }

    fn needed(&self, piece: usize) -> usize {
        self.state().pending as usize + piece
    }

    fn more(&mut self) -> usize {
        match self.run.rng.below(16) {
            0 => HELD + LONGEST_PIECE,
            1..=4 => self.run.rng.length(20),
            _ => 0,
        }
    }
}
