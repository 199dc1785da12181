//! A run of the comparison: its numbers by chance, its counts, and what it says on a difference.

use crate::generate::prng::Prng;
use crate::tally::Tally;
use std::fmt::Debug;

/// What a call was given, to be printed on a difference.
pub enum Given<'a> {
    Bytes(&'a str, &'a [u8]),
    Number(&'a str, i64),
}

/// The state of a run.
pub struct Run {
    seed: u64,
    round: u64,
    pub rng: Prng,
    pub tally: Tally,
}

impl Run {
    pub fn new(seed: u64) -> Run {
        Run { seed, round: 0, rng: Prng::new(seed), tally: Tally::default() }
    }

    pub fn begin(&mut self, round: u64) {
        self.round = round;
        self.rng = Prng::of_round(self.seed, round);
    }

    /// Both answers are the same, or the run ends here.
    pub fn same<T: PartialEq + Debug>(&self, what: &str, given: &[Given], library: T, oracle: T) {
        if library != oracle {
            self.differ(what, given, format!("{library:?}"), format!("{oracle:?}"));
        }
    }

    /// Both byte strings are the same, or the run ends here.
    pub fn same_bytes(&self, what: &str, given: &[Given], library: &[u8], oracle: &[u8]) {
        if library != oracle {
            self.differ(what, given, hex(library), hex(oracle));
        }
    }

    fn differ(&self, what: &str, given: &[Given], library: String, oracle: String) -> ! {
        println!("DIFFERENCE in {what}, seed {}, round {}", self.seed, self.round);
        for item in given {
            match item {
                Given::Bytes(name, bytes) => println!("  {name} ({} bytes): {}", bytes.len(), hex(bytes)),
                Given::Number(name, number) => println!("  {name}: {number}"),
            }
        }
        println!("  library: {library}\n  oracle:  {oracle}");
        println!("  again: BLOSSOMAXLE_SEED={} BLOSSOMAXLE_FIRST={} BLOSSOMAXLE_ROUNDS=1", self.seed, self.round);
        panic!("library and oracle differ in {what}");
    }
}

fn hex(bytes: &[u8]) -> String {
    bytes.iter().map(|byte| format!("{byte:02X}")).collect()
}
