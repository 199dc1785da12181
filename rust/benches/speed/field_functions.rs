//! The field functions: the library's, and hand-written ones of the same rules.
//!
//! Every function with a row is compared on doubtful frames by itself. Without a row are `boot_time`, `elapsed`,
//! `input_voltage` and `load_factor` of OnFlight, and the three bodies: they judge like the others, and give one field
//! or a part of the slice. Those of `fields::exported` are compared with the library's in the same way.

use crate::fields::{self, Answer};
use crate::messages::{self, FRAMES};
use crate::report;
use crate::timing::medians;
use blossomaxle::{mgl, Format, Refusal};
use std::collections::BTreeSet;
use std::fmt::Debug;
use std::hint::black_box;

/// The times that all frames are read in a round.
pub const PASSES: usize = 25;

/// What the project wants of each row.
const GOAL: f64 = 0.8;

/// The answers of a function that judges only the frame: 0, which is done, and its refusals.
const FRAME: &[u32] = &[0, 7];

/// The answers of one that judges the message too.
const MESSAGE: &[u32] = &[0, 7, 8];

/// The answers of one that judges the message and a field.
const FIELD: &[u32] = &[0, 7, 8, 9];

/// The answers of one that judges a field of the only message.
const ONLY_FIELD: &[u32] = &[0, 7, 9];

/// Measures the field functions of every format.
pub fn measure() {
    report::fields_head(FRAMES);
    measure_mgl();
    measure_onflight();
    measure_nmea();
    measure_steps();
}

/// Compares each function of a row by itself, and measures all together, as `library` and `hand` have them. `black_box`
/// hides that they have the same frame, so that each judges it. The last part is the row's functions exported, if they
/// are.
macro_rules! row {
    ($name:literal, $format:expr, $maker:path, $($function:ident $answers:ident),+) => {
        row!($name, $format, $maker, $($function $answers),+; None::<fn(&[u8]) -> Answer<_>>);
    };
    ($name:literal, $format:expr, $maker:path, $($function:ident $answers:ident),+; $exported:expr) => {
        let frames = messages::doubtful($format, $maker);
        $(compare(stringify!($function), &frames, $answers, library::$function, hand::$function);)+
        time(
            $name,
            &messages::good($format, $maker),
            |frame| Ok(($(library::$function(black_box(frame))?,)+)),
            |frame| Ok(($(hand::$function(black_box(frame))?,)+)),
            $exported,
        );
    };
}

/// A row of one function that `fields::exported` has too.
macro_rules! exported_row {
    ($name:literal, $format:expr, $maker:path, $function:ident $answers:ident) => {
        let frames = messages::doubtful($format, $maker);
        compare(stringify!($function), &frames, $answers, library::$function, fields::exported::$function);
        row!($name, $format, $maker, $function $answers; Some(|frame: &[u8]| {
            Ok((fields::exported::$function(black_box(frame))?,))
        }));
    };
}

fn measure_mgl() {
    use blossomaxle::mgl as library;
    use fields::mgl as hand;
    exported_row!("MGL header", Format::Mgl, messages::gps, header FRAME);
    exported_row!("MGL clock", Format::Mgl, messages::primary, clock MESSAGE);
    exported_row!("MGL GPS", Format::Mgl, messages::gps, gps FIELD);
    measure_fuel();
}

fn measure_fuel() {
    use blossomaxle::mgl as library;
    use fields::{exported, mgl as hand};
    for frames in [messages::fuel, messages::many_tanks].map(|maker| messages::doubtful(Format::Mgl, maker)) {
        compare_fuel(&frames, hand::fuel_count, hand::fuel_tank);
        compare_fuel(&frames, exported::fuel_count, exported::fuel_tank);
    }
    time(
        "MGL fuel: count, each tank",
        &messages::good(Format::Mgl, messages::fuel),
        |frame| fuel(frame, library::fuel_count, library::fuel_tank),
        |frame| fuel(frame, hand::fuel_count, hand::fuel_tank),
        Some(|frame: &[u8]| fuel(frame, exported::fuel_count, exported::fuel_tank)),
    );
}

/// Compares functions for fuel with the library's, at every item that a frame can have and at one more.
fn compare_fuel(
    frames: &[Vec<u8>],
    count: impl Fn(&[u8]) -> Answer<u32>,
    tank: impl Fn(&[u8], u32) -> Answer<mgl::Tank>,
) {
    compare("fuel_count", frames, FIELD, mgl::fuel_count, count);
    let numbers = |item| answers("fuel_tank", frames, |frame| mgl::fuel_tank(frame, item), |frame| tank(frame, item));
    expect("fuel_tank", (0..=32).flat_map(numbers).collect(), FIELD);
}

/// The number of tanks, after each was read.
fn fuel<T>(frame: &[u8], count: impl Fn(&[u8]) -> Answer<u32>, tank: impl Fn(&[u8], u32) -> Answer<T>) -> Answer<u32> {
    let count = count(black_box(frame))?;
    for item in 0..count {
        black_box(tank(black_box(frame), item)?);
    }
    Ok(count)
}

fn measure_onflight() {
    use blossomaxle::onflight as library;
    use fields::onflight as hand;
    let format = Format::OnFlight;
    answers("clock", &messages::good(format, messages::onflight_any_day), library::clock, hand::clock);
    row!("OnFlight clock", format, messages::onflight, clock FRAME);
    row!("OnFlight status, set bits", format, messages::onflight, status FRAME, set_bits FRAME);
    row!(
        "OnFlight fix, 2 positions, 2 altitudes",
        format,
        messages::onflight,
        fix ONLY_FIELD,
        gnss_position FRAME,
        ins_position FRAME,
        gnss_altitude FRAME,
        ins_altitude FRAME
    );
    row!(
        "OnFlight 4 sensors",
        format,
        messages::onflight,
        voltages FRAME,
        accelerations FRAME,
        gyros FRAME,
        pressure FRAME
    );
}

fn measure_nmea() {
    use blossomaxle::nmea as library;
    use fields::nmea as hand;
    let format = Format::Nmea;
    exported_row!("RMC clock", format, messages::rmc, rmc_clock FIELD);
    exported_row!("RMC position", format, messages::rmc, rmc_position FIELD);
    exported_row!("RMC status", format, messages::rmc, rmc_status FIELD);
    row!("RMC clock, position, status", format, messages::rmc, rmc_clock FIELD, rmc_position FIELD, rmc_status FIELD);
    exported_row!("PLARS setting", format, messages::plars, setting FIELD);
}

/// What each part of the library's form costs two functions by hand.
fn measure_steps() {
    use fields::{exported, mgl as hand, steps};
    report::steps_head();
    let headers = messages::good(Format::Mgl, messages::gps);
    let tanks = messages::good(Format::Mgl, messages::fuel);
    let header = per_frame(medians(5, |step| match step {
        0 => repeat(&headers, |frame| hand::header(black_box(frame))),
        1 => repeat(&headers, |frame| steps::header_called(black_box(frame))),
        2 => repeat(&headers, |frame| steps::header_apart(black_box(frame))),
        3 => repeat(&headers, |frame| exported::header(black_box(frame))),
        _ => repeat(&headers, |frame| mgl::header(black_box(frame))),
    }));
    let tank = per_frame(medians(5, |step| match step {
        0 => repeat(&tanks, |frame| hand::fuel_tank(black_box(frame), 0)),
        1 => repeat(&tanks, |frame| steps::tank_called(black_box(frame))),
        2 => repeat(&tanks, |frame| steps::tank_apart(black_box(frame))),
        3 => repeat(&tanks, |frame| exported::fuel_tank(black_box(frame), 0)),
        _ => repeat(&tanks, |frame| mgl::fuel_tank(black_box(frame), 0)),
    }));
    report::steps(&header, &tank);
}

/// Seconds for a frame, of the seconds for a round.
fn per_frame(times: Vec<f64>) -> Vec<f64> {
    times.iter().map(|time| time / (PASSES * FRAMES) as f64).collect()
}

/// Measures a row on good frames. Its functions hide their frames from the compiler.
fn time<T: PartialEq + Debug>(
    name: &str,
    frames: &[Vec<u8>],
    library: impl Fn(&[u8]) -> Answer<T>,
    hand: impl Fn(&[u8]) -> Answer<T>,
    exported: Option<impl Fn(&[u8]) -> Answer<T>>,
) {
    assert_eq!(answers(name, frames, &library, &hand), [0].into(), "{name}: a good frame is refused");
    if let Some(exported) = &exported {
        answers(name, frames, &library, exported);
    }
    let tasks = if exported.is_some() { 3 } else { 2 };
    let times = per_frame(medians(tasks, |task| match (task, &exported) {
        (0, _) => repeat(frames, &library),
        (2, Some(exported)) => repeat(frames, exported),
        _ => repeat(frames, &hand),
    }));
    report::fields_row(name, [times[0], times[1]], times.get(2).copied(), Some(GOAL));
}

fn repeat<T>(frames: &[Vec<u8>], functions: impl Fn(&[u8]) -> T) {
    for frame in (0..PASSES).flat_map(|_| frames) {
        black_box(&functions(frame));
    }
}

/// Stops the program unless both functions answer the same of every frame, and give each of the expected answers.
fn compare<T: PartialEq + Debug>(
    name: &str,
    frames: &[Vec<u8>],
    expected: &[u32],
    library: impl Fn(&[u8]) -> Answer<T>,
    hand: impl Fn(&[u8]) -> Answer<T>,
) {
    expect(name, answers(name, frames, library, hand), expected);
}

fn expect(name: &str, given: BTreeSet<u32>, expected: &[u32]) {
    assert!(given.iter().eq(expected), "{name}: the doubtful frames give {given:?}, and not {expected:?}");
}

/// Stops the program unless both functions answer the same of every frame. Says which numbers they answer.
fn answers<T: PartialEq + Debug>(
    name: &str,
    frames: &[Vec<u8>],
    library: impl Fn(&[u8]) -> Answer<T>,
    hand: impl Fn(&[u8]) -> Answer<T>,
) -> BTreeSet<u32> {
    let number = |frame: &Vec<u8>| {
        let answers = (library(frame), hand(frame));
        assert_eq!(answers.0, answers.1, "{name}: the library and the function by hand differ on {frame:X?}");
        answers.0.map_or_else(Refusal::number, |_| 0)
    };
    frames.iter().map(number).collect()
}
