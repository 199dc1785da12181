//! One call on a reader, by the library and by the oracle.

use crate::area::Area;
use crate::oracle::reader::{self, Call, Outcome, State, LEN, LONGEST_PIECE};
use crate::raw;
use crate::run::{Given, Run};
use crate::typed;

/// A fresh reader in bytes that were something else before.
pub fn fresh(run: &mut Run, format: u32, before: &[u8]) -> Vec<u8> {
    let (number, expected) = reader::fresh(format, before);
    let given = [Given::Number("format", format.into()), Given::Bytes("reader", before)];
    let mut lent = Area::holding(before, run.rng.byte());
    run.same("the answer of fresh", &given, raw::fresh(format, lent.lent()), number);
    run.same_bytes("the bytes of fresh", &given, lent.whole(), &lent.expected(&expected));
    run.tally.call("fresh", number, 0);
    if before.len() == LEN {
        let wanted = if number == 0 { Ok(expected.clone()) } else { Err(number) };
        run.same("the typed fresh", &given, typed::fresh(format), wanted);
    }
    expected
}

/// A call on the reader in the bytes, which are then those that it leaves.
pub fn serve(run: &mut Run, bytes: &mut Vec<u8>, call: Call, out: usize) -> Outcome {
    let expected = reader::serve(bytes, call, out);
    let given = [
        Given::Bytes("reader", bytes),
        Given::Bytes("piece", call.bytes()),
        Given::Number("close", matches!(call, Call::Close).into()),
        Given::Number("output", out as i64),
    ];
    let fill = run.rng.byte();
    let mut lent_reader = Area::holding(bytes, fill);
    let mut lent_out = Area::out(out, fill);
    let number = raw::call(lent_reader.lent(), call, lent_out.lent());
    run.same("the answer of a call", &given, number, expected.number);
    run.same_bytes("the reader after a call", &given, lent_reader.whole(), &lent_reader.expected(&expected.reader));
    run.same_bytes("the output after a call", &given, lent_out.whole(), &lent_out.expected(&expected.handed));
    if run.rng.one_in(4) {
        serve_typed(run, &given, bytes, call, &expected, out);
    }
    count(run, bytes, call, &expected);
    bytes.clone_from(&expected.reader);
    expected
}

/// The same call once more, by the typed reader.
fn serve_typed(run: &mut Run, given: &[Given], bytes: &[u8], call: Call, expected: &Outcome, out: usize) {
    let mut lent_out = Area::out(out, run.rng.byte());
    let (answer, after) = typed::serve(bytes, call, lent_out.lent());
    let wanted = if expected.number == 0 { Ok(expected.handed.len()) } else { Err(expected.number) };
    run.same("the answer of a typed call", given, answer, wanted);
    run.same_bytes("the typed reader after a call", given, &after, &expected.reader);
    run.same_bytes("the output after a typed call", given, lent_out.whole(), &lent_out.expected(&expected.handed));
    run.tally.call("typed reader", expected.number, call.bytes().len());
}

/// Counts what kind of call this was.
fn count(run: &mut Run, before: &[u8], call: Call, outcome: &Outcome) {
    let closes = matches!(call, Call::Close);
    run.tally.call(if closes { "close" } else { "piece" }, outcome.number, call.bytes().len());
    let states = (State::decode(before), State::decode(&outcome.reader));
    let (Some(before), Some(after), 0) = (states.0, states.1, outcome.number) else { return };
    let mut add = |name, times| {
        if times > 0 {
            run.tally.add(name, before.format, times);
        }
    };
    if closes {
        add("frames of a close, format", outcome.frames);
        add("close with bytes pending, format", (before.pending > 0).into());
    } else {
        add("frames of a piece, format", outcome.frames);
        add("piece with bytes pending before, format", (before.pending > 0).into());
        add("piece with bytes pending after, format", (after.pending > 0).into());
        add("piece of 4096 bytes, format", (call.bytes().len() == LONGEST_PIECE).into());
    }
}
