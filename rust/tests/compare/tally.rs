//! Counts of what was compared, so that a comparison of nothing is noticed.

use std::collections::BTreeMap;
use std::fmt;

/// How often each kind of thing was met, by name and number.
#[derive(Default)]
pub struct Tally {
    calls: u64,
    bytes: u64,
    kinds: BTreeMap<(&'static str, u32), u64>,
}

/// Every kind that a run must meet, with its numbers: answers where nothing else is said.
const EXPECTED: &[(&str, &[u32])] = &[
    ("fresh", &[0, 11]),
    ("piece", &[0, 1, 2, 3, 4, 11]),
    ("close", &[0, 2, 4, 11]),
    ("broken reader: unknown format", &[1]),
    ("broken reader: pending over bound", &[1]),
    ("broken reader: pending no start", &[1]),
    ("broken reader: closed with pending", &[1]),
    ("broken reader: numbers over limit", &[1]),
    ("broken reader: other length", &[1]),
    ("frames of a piece, format", &[1, 2, 3]),
    // What can be pending in the other formats is too short or cannot hold a start byte.
    ("frames of a close, format", &[1]),
    ("piece with bytes pending before, format", &[1, 2, 3]),
    ("piece with bytes pending after, format", &[1, 2, 3]),
    ("piece of 4096 bytes, format", &[1, 2, 3]),
    ("close with bytes pending, format", &[1, 2, 3]),
    ("lists of calls, format", &[1, 2, 3]),
    ("typed reader", &[0, 1, 2, 3, 4, 11]),
    ("frame length", &[0]),
    ("frame length: frame, format", &[1, 2, 3]),
    ("frame length: start, format", &[1, 2, 3]),
    ("frame length: neither, format", &[1, 2, 3]),
    ("frame length: unknown format", &[1]),
    ("MGL body", &[0, 7]),
    ("MGL header", &[0, 7]),
    ("MGL GPS", &[0, 7, 8, 9]),
    ("MGL fuel count", &[0, 7, 8, 9]),
    ("MGL fuel tank", &[0, 7, 8, 9]),
    ("MGL clock", &[0, 7, 8]),
    ("OnFlight body", &[0, 7]),
    ("OnFlight status", &[0, 7]),
    ("OnFlight set bits", &[0, 7]),
    ("OnFlight boot time", &[0, 7]),
    ("OnFlight clock", &[0, 7]),
    ("OnFlight voltages", &[0, 7]),
    ("OnFlight accelerations", &[0, 7]),
    ("OnFlight gyros", &[0, 7]),
    ("OnFlight pressure", &[0, 7]),
    ("OnFlight fix", &[0, 7, 9]),
    ("OnFlight GNSS position", &[0, 7]),
    ("OnFlight INS position", &[0, 7]),
    ("OnFlight GNSS altitude", &[0, 7]),
    ("OnFlight INS altitude", &[0, 7]),
    ("NMEA body", &[0, 7]),
    ("RMC clock", &[0, 7, 8, 9]),
    ("RMC position", &[0, 7, 8, 9]),
    ("RMC status", &[0, 7, 8, 9]),
    ("PLARS setting", &[0, 7, 8, 9]),
    ("unknown field function", &[7]),
    ("MGL clock says", &[0, 1, 2, 3, 4, 5, 6, 7]),
    ("OnFlight clock says", &[0, 1, 2, 3, 4, 5, 6]),
    ("RMC clock says", &[0, 1, 2, 3, 4, 5, 6]),
    ("RMC status says", &[b'A' as u32, b'V' as u32]),
    ("PLARS parameter", &[0, 1, 2, 3]),
    ("GPS mode", &[0, 1, 2, 3, 4, 5]),
    ("OnFlight fix says", &[0, 2, 3, 4]),
    ("OnFlight input voltage", &[0, 7]),
    ("OnFlight load factor", &[0, 7]),
    ("unknown ratio", &[7]),
    ("elapsed", &[0, 7]),
    ("gyro", &[0]),
    ("write gyro", &[0, 9]),
    ("write MGL", &[0, 5, 6]),
    ("write OnFlight", &[0, 5, 6]),
    ("write NMEA", &[0, 5, 6]),
    ("write unknown format", &[5]),
    ("write setting", &[0, 6, 9]),
    ("bench entry", &[0, 9, 10]),
];

impl Tally {
    /// A call of the library that was given some bytes. Those of refused calls do not count.
    pub fn call(&mut self, name: &'static str, number: u32, bytes: usize) {
        self.calls += 1;
        if number == 0 {
            self.bytes += bytes as u64;
        }
        self.add(name, number, 1);
    }

    /// Some more of a kind.
    pub fn add(&mut self, name: &'static str, number: u32, times: u64) {
        *self.kinds.entry((name, number)).or_default() += times;
    }

    /// Stops the run if a kind was never met.
    pub fn expect_all_kinds(&self) {
        let all = EXPECTED.iter().flat_map(|(name, numbers)| numbers.iter().map(move |number| (*name, *number)));
        let missing: Vec<(&str, u32)> =
            all.filter(|kind| self.kinds.get(kind).is_none_or(|times| *times == 0)).collect();
        assert!(missing.is_empty(), "never met: {missing:?}");
    }
}

impl fmt::Display for Tally {
    fn fmt(&self, f: &mut fmt::Formatter) -> fmt::Result {
        let mut last = "";
        for ((name, number), times) in &self.kinds {
            if *name != last {
                write!(f, "{}  {name}:", if last.is_empty() { "" } else { "\n" })?;
                last = name;
            }
            write!(f, " {number}={times}")?;
        }
        writeln!(f, "\ncompare: {} calls, {} bytes in those that were not refused", self.calls, self.bytes)
    }
}
