//! Compares the library with the oracle on generated input, call by call and byte by byte.
//!
//! - `BLOSSOMAXLE_SEED` is a number; without it the clock gives one. It is printed.
//! - `BLOSSOMAXLE_ROUNDS` is a number of rounds, or `short` (the default), `normal` or `long`.
//! - `BLOSSOMAXLE_FIRST` is the first round, 0 without it. A round depends only on the seed and its own number, so that a
//!   difference is met again with its seed, its round as the first, and one round.

mod area;
mod bench;
mod calls;
#[path = "../../src/ffi.rs"]
mod ffi;
mod fields;
mod frames;
#[path = "../generate/mod.rs"]
mod generate;
mod lines;
#[path = "../oracle/mod.rs"]
mod oracle;
mod raw;
mod run;
mod states;
mod tally;
mod typed;
mod writers;

use run::Run;
use std::env;
use std::time::{Instant, SystemTime, UNIX_EPOCH};

/// So few rounds may leave a kind of answer out.
const ROUNDS_FOR_ALL_KINDS: u64 = 300;

fn main() {
    let seed = number("BLOSSOMAXLE_SEED").unwrap_or_else(seed_of_clock);
    let first = number("BLOSSOMAXLE_FIRST").unwrap_or(0);
    let rounds = rounds();
    println!("compare: seed {seed}, rounds {first} to {}", first + rounds - 1);
    let began = Instant::now();
    let mut run = Run::new(seed);
    writers::exhaust(&mut run);
    for round in first..first + rounds {
        run.begin(round);
        one_round(&mut run);
    }
    print!("{}", run.tally);
    println!("compare: no difference in {:.1} s, seed {seed}", began.elapsed().as_secs_f64());
    if rounds >= ROUNDS_FOR_ALL_KINDS {
        run.tally.expect_all_kinds();
    }
}

fn one_round(run: &mut Run) {
    lines::compare(run);
    states::compare(run);
    frames::compare(run);
    fields::compare(run);
    writers::compare(run);
    bench::compare(run);
}

/// How many rounds: about a minute for the short run, several for the normal one.
fn rounds() -> u64 {
    match env::var("BLOSSOMAXLE_ROUNDS").as_deref() {
        Err(_) | Ok("short") => 2_500,
        Ok("normal") => 10_000,
        Ok("long") => 100_000,
        Ok(text) => text.parse::<u64>().expect("BLOSSOMAXLE_ROUNDS is short, normal, long or a number").max(1),
    }
}

fn number(name: &str) -> Option<u64> {
    let text = env::var(name).ok()?;
    Some(text.parse().unwrap_or_else(|_| panic!("{name} is a number, and not {text:?}")))
}

fn seed_of_clock() -> u64 {
    SystemTime::now().duration_since(UNIX_EPOCH).map_or(1, |since| since.as_nanos() as u64)
}
