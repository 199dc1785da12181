//! The tables of contents of bench files.

use crate::generate::prng::Prng;
use crate::oracle::{answer::Answer, bench};
use crate::raw;
use crate::run::{Given, Run};
use crate::typed;

/// All bench files of a round.
pub fn compare(run: &mut Run) {
    for _ in 0..30 {
        let (first, file_len) = some_file(&mut run.rng);
        let n = first.first().map_or(0, |n| u32::from(*n));
        for item in [0, n / 2, n.saturating_sub(1), n, u32::MAX] {
            entry(run, &first, file_len, item);
        }
    }
}

fn entry(run: &mut Run, first: &[u8], file_len: u64, item: u32) {
    let expected = bench::entry(first, file_len, item);
    let given = [
        Given::Bytes("first", first),
        Given::Number("file length", file_len as i64),
        Given::Number("item", item.into()),
    ];
    run.same("bench entry", &given, raw::entry(first, file_len, item), expected.clone());
    let mut typed_values = expected.values;
    typed_values[0] = 0;
    let wanted = Answer { number: expected.number, values: typed_values };
    run.same("typed bench entry", &given, typed::entry(first, file_len, item), wanted);
    if item == 0 {
        let count = if expected.number == 0 { Ok(expected.values[0] as usize) } else { Err(expected.number) };
        run.same("typed bench count", &given, typed::counts(first, file_len), count.map(|n| (n, n)));
    }
    run.tally.call("bench entry", expected.number, first.len());
}

/// The first bytes of a file and its length: mostly sound, else with one thing wrong. More bytes than the file has are sound.
fn some_file(rng: &mut Prng) -> (Vec<u8>, u64) {
    let n = if rng.one_in(10) { rng.pick(&[0, 17, 18]) } else { rng.range(1, 16) as u8 };
    let mut first = vec![n];
    let mut file_len = 1 + 6 * u64::from(n);
    let small = rng.one_in(2);
    for _ in 0..n {
        let length = if small { rng.below(40) as u32 } else { rng.pick(&[0, 1, u32::MAX, rng.clone().next() as u32]) };
        first.extend([rng.range(1, 3) as u8, rng.byte()]);
        first.extend(length.to_le_bytes());
        file_len += u64::from(length);
    }
    let toc = first.len();
    if rng.one_in(2) {
        let more = file_len.min(700) as usize - toc.min(file_len.min(700) as usize);
        let bodies = rng.length(more + 1);
        first.extend(rng.bytes(bodies));
    }
    spoil(rng, &mut first, &mut file_len, toc);
    (first, file_len)
}

/// Perhaps one thing wrong, or more bytes than the file has.
fn spoil(rng: &mut Prng, first: &mut Vec<u8>, file_len: &mut u64, toc: usize) {
    match rng.below(14) {
        0 => first[0] = rng.pick(&[0, 17, 255, first[0] + 1, first[0].saturating_sub(1)]),
        1 => first.truncate(rng.length(toc)),
        2 if toc > 1 => first[1 + 6 * rng.length((toc - 1) / 6)] = rng.pick(&[0, 4, 255]),
        3 => *file_len = file_len.wrapping_add(rng.pick(&[1, u64::MAX, 1 << 32, 6])),
        4 => *file_len = rng.pick(&[0, 1, 7, u64::MAX, first.len() as u64]),
        5 => {
            let past = (*file_len).min(400) as usize + 1;
            first.resize(past.max(first.len()), 0);
        }
        _ => {}
    }
}
