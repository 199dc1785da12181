//! Every field function on good frames, frames of other messages, and bytes that are no frame.

use crate::ffi::{function, ratio};
use crate::generate::{self, damage};
use crate::oracle::{answer, onflight, FORMATS};
use crate::raw;
use crate::run::{Given, Run};
use crate::typed;

/// The field functions of `capture_read`, by the hundreds of their format.
const FUNCTIONS: [(u32, &str); 25] = [
    (function::MGL_BODY, "MGL body"),
    (function::MGL_HEADER, "MGL header"),
    (function::MGL_GPS, "MGL GPS"),
    (function::MGL_FUEL_COUNT, "MGL fuel count"),
    (function::MGL_FUEL_TANK, "MGL fuel tank"),
    (function::MGL_CLOCK, "MGL clock"),
    (function::ONFLIGHT_BODY, "OnFlight body"),
    (function::ONFLIGHT_STATUS, "OnFlight status"),
    (function::ONFLIGHT_SET_BITS, "OnFlight set bits"),
    (function::ONFLIGHT_BOOT_TIME, "OnFlight boot time"),
    (function::ONFLIGHT_CLOCK, "OnFlight clock"),
    (function::ONFLIGHT_VOLTAGES, "OnFlight voltages"),
    (function::ONFLIGHT_ACCELERATIONS, "OnFlight accelerations"),
    (function::ONFLIGHT_GYROS, "OnFlight gyros"),
    (function::ONFLIGHT_PRESSURE, "OnFlight pressure"),
    (function::ONFLIGHT_FIX, "OnFlight fix"),
    (function::ONFLIGHT_GNSS_POSITION, "OnFlight GNSS position"),
    (function::ONFLIGHT_INS_POSITION, "OnFlight INS position"),
    (function::ONFLIGHT_GNSS_ALTITUDE, "OnFlight GNSS altitude"),
    (function::ONFLIGHT_INS_ALTITUDE, "OnFlight INS altitude"),
    (function::NMEA_BODY, "NMEA body"),
    (function::RMC_CLOCK, "RMC clock"),
    (function::RMC_POSITION, "RMC position"),
    (function::RMC_STATUS, "RMC status"),
    (function::PLARS_SETTING, "PLARS setting"),
];

/// The field functions of `capture_ratio`.
const RATIOS: [(u32, &str); 2] =
    [(ratio::ONFLIGHT_INPUT_VOLTAGE, "OnFlight input voltage"), (ratio::ONFLIGHT_LOAD_FACTOR, "OnFlight load factor")];

/// Numbers that `capture_read` and `capture_ratio` do not know, those of the other among them.
const UNKNOWN: [u32; 14] = [0, 1, 99, 106, 199, 214, 215, 216, 299, 305, 256 + 100, 65_536 + 201, 301 << 8, u32::MAX];
const UNKNOWN_RATIO: [u32; 8] = [0, 100, 205, 213, 216, 256 + 214, 65_536 + 215, u32::MAX];

/// All field functions of a round.
pub fn compare(run: &mut Run) {
    for _ in 0..200 {
        // Sentences have the most ways to be wrong.
        let format = run.rng.pick(&[1, 2, 3, 3, 3]);
        let frame = some_bytes(run, format);
        for (function, name) in FUNCTIONS {
            if function / 100 == format || run.rng.one_in(20) {
                read(run, name, function, &frame);
            }
        }
        for (function, name) in RATIOS {
            if format == 2 || run.rng.one_in(20) {
                read_ratio(run, name, function, &frame);
            }
        }
        let unknown = run.rng.pick(&UNKNOWN);
        read(run, "unknown field function", unknown, &frame);
        let unknown = run.rng.pick(&UNKNOWN_RATIO);
        read_ratio(run, "unknown ratio", unknown, &frame);
        if format == 2 {
            elapsed(run, &frame);
        }
    }
}

/// Mostly a good frame; else a damaged one, one of another format, or one with a byte more or fewer.
fn some_bytes(run: &mut Run, format: u32) -> Vec<u8> {
    let rng = &mut run.rng;
    let mut bytes = generate::frame(rng, format);
    match rng.below(12) {
        0 => bytes = damage::stretch(rng, format),
        1 => bytes.push(rng.byte()),
        2 => drop(bytes.pop()),
        3 => drop(bytes.remove(0)),
        4 => {
            let at = rng.length(bytes.len());
            bytes[at] ^= 1 << rng.below(8);
        }
        5 => {
            let other = rng.pick(&FORMATS);
            bytes = generate::frame(rng, other);
        }
        _ => {}
    }
    bytes
}

fn read(run: &mut Run, name: &'static str, function: u32, frame: &[u8]) {
    let item = match run.rng.below(4) {
        0 => run.rng.pick(&[31, 32, 33, 255, 256, 1 << 29, u32::MAX]),
        _ => run.rng.below(5) as u32,
    };
    let expected = answer::read(function, item, frame);
    let given =
        [Given::Number("function", function.into()), Given::Number("item", item.into()), Given::Bytes("frame", frame)];
    run.same(name, &given, raw::read(function, item, frame), expected.clone());
    if let Some(typed) = typed::read(function, item, frame) {
        run.same("a typed field function", &given, typed, expected.clone());
    }
    run.tally.call(name, expected.number, frame.len());
    if expected.number == 0 {
        says(run, function, expected.values);
    }
}

/// Counts what was read where it is one of a few.
fn says(run: &mut Run, function: u32, values: [i64; 21]) {
    let (name, value) = match function {
        function::MGL_CLOCK => ("MGL clock says", values[0]),
        function::ONFLIGHT_CLOCK => ("OnFlight clock says", values[0]),
        function::RMC_CLOCK => ("RMC clock says", values[0]),
        function::RMC_STATUS => ("RMC status says", values[0]),
        function::PLARS_SETTING => ("PLARS parameter", values[1]),
        function::MGL_GPS => ("GPS mode", values[10]),
        function::ONFLIGHT_FIX => ("OnFlight fix says", values[0]),
        _ => return,
    };
    run.tally.add(name, value as u32, 1);
}

fn read_ratio(run: &mut Run, name: &'static str, function: u32, frame: &[u8]) {
    let (number, value) = answer::ratio(function, frame);
    let given = [Given::Number("function", function.into()), Given::Bytes("frame", frame)];
    run.same(name, &given, raw::ratio(function, frame), (number, value.to_bits()));
    if let Some(typed) = typed::ratio(function, frame) {
        run.same(
            "a typed ratio",
            &given,
            typed.map(f64::to_bits),
            (number == 0).then_some(value.to_bits()).ok_or(number),
        );
    }
    run.tally.call(name, number, frame.len());
}

fn elapsed(run: &mut Run, from: &[u8]) {
    let to = some_bytes(run, 2);
    for (from, to) in [(from, &to[..]), (&to, from), (from, from)] {
        let expected = answer::elapsed(from, to);
        let given = [Given::Bytes("from", from), Given::Bytes("to", to)];
        run.same("elapsed", &given, raw::elapsed(from, to), expected.clone());
        run.same(
            "typed elapsed",
            &given,
            typed::elapsed(from, to),
            onflight::elapsed(from, to).map(|values| values[0]),
        );
        run.tally.call("elapsed", expected.number, from.len() + to.len());
    }
}
