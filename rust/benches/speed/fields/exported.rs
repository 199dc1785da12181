//! The field functions by hand in the library's form: behind a C function that answers a number and 21 values, with a
//! function for each that takes the values as the crate's does and is inlined as it is, and with MGL frames judged by a
//! function apart (`run.rs`). Where the library takes longer than these, the rest is its own work.

use super::run::is_frame;
use super::{mgl, nmea, Answer};
use crate::interface::{function, misfit, Read, Row, Values, VALUES};
use blossomaxle::mgl::{Gps, Header, Tank};
use blossomaxle::nmea::{Parameter, Position, Setting, Source, Status};
use blossomaxle::{Clock, Field, Format, Refusal};
use std::hint::black_box;
use std::slice;

/// As `capture_read`, for some of its numbers.
#[inline(never)]
unsafe extern "C" fn read(function: u32, item: u32, frame: *const u8, frame_len: usize) -> Values {
    // SAFETY: the caller lends a slice, as to `capture_read`.
    let frame = unsafe { slice::from_raw_parts(frame, frame_len) };
    match function {
        function::MGL_HEADER..=function::MGL_CLOCK => read_mgl(function, item, frame),
        function::RMC_CLOCK => answer(nmea::rmc_clock(frame).map(clock_values)),
        function::RMC_POSITION => answer(nmea::rmc_position(frame).map(position_values)),
        function::RMC_STATUS => answer(nmea::rmc_status(frame).map(|status| [status as i64])),
        function::PLARS_SETTING => answer(nmea::setting(frame).map(setting_values)),
        _ => refused(Refusal::NotOneFrame),
    }
}

/// The functions of MGL frames. A sentence is judged in a pass of its own, in the library too.
fn read_mgl(function: u32, item: u32, frame: &[u8]) -> Values {
    if !is_frame(Format::Mgl, frame) {
        return refused(Refusal::NotOneFrame);
    }
    match function {
        function::MGL_HEADER => answer(mgl::header_of(frame).map(header_values)),
        function::MGL_GPS => answer(mgl::gps_of(frame).map(gps_values)),
        function::MGL_FUEL_COUNT => answer(mgl::fuel_count_of(frame).map(|count| [count.into()])),
        function::MGL_FUEL_TANK => answer(mgl::fuel_tank_of(frame, item).map(tank_values)),
        _ => answer(mgl::clock_of(frame).map(clock_values)),
    }
}

/// The answer of the first values, and zeros behind them, or of a refusal.
fn answer<const N: usize>(first: Answer<[i64; N]>) -> Values {
    match first {
        Ok(first) => {
            let mut values = [0; VALUES];
            values[..N].copy_from_slice(&first);
            Values { number: 0, values }
        }
        Err(refusal) => refused(refusal),
    }
}

/// Apart and cold, so that a good frame does not pass the refusals.
#[cold]
#[inline(never)]
fn refused(refusal: Refusal) -> Values {
    Values { number: refusal.number(), values: [0; VALUES] }
}

fn header_values(header: Header) -> [i64; 4] {
    [header.message_type, header.rate, header.count, header.version].map(i64::from)
}

fn gps_values(gps: Gps) -> [i64; 21] {
    [
        gps.latitude.into(),
        gps.longitude.into(),
        gps.altitude.into(),
        gps.agl.into(),
        gps.north.into(),
        gps.east.into(),
        gps.down.into(),
        gps.ground_speed.into(),
        gps.track.into(),
        gps.variation.into(),
        gps.mode.into(),
        gps.tracked.into(),
        gps.visible.into(),
        gps.horizontal_accuracy.into(),
        gps.vertical_accuracy.into(),
        gps.capability.into(),
        gps.raim.into(),
        gps.raim_horizontal_error.into(),
        gps.raim_vertical_error.into(),
        gps.valid.into(),
        gps.altitude_valid.into(),
    ]
}

fn tank_values(tank: Tank) -> [i64; 4] {
    [tank.level.into(), tank.kind.into(), tank.on.into(), tank.sensors.into()]
}

fn clock_values(clock: Clock) -> [i64; 2] {
    match clock {
        Clock::Unset => [0, 0],
        Clock::Good(seconds) => [1, seconds],
        Clock::Wrong(field) => [2 + field as i64, 0],
    }
}

fn position_values(position: Position) -> [i64; 2] {
    [position.latitude.into(), position.longitude.into()]
}

fn setting_values(setting: Setting) -> [i64; 3] {
    [setting.source as i64, setting.parameter as i64, setting.value.into()]
}

/// Calls the C function. `black_box` hides which one it is, so that the compiler cannot make one for each number.
#[inline(always)]
fn call(function: u32, item: u32, frame: &[u8]) -> Answer<Row> {
    let read = black_box(read as Read);
    // SAFETY: the slice is initialised and only read.
    Row::judge(unsafe { read(function, item, frame.as_ptr(), frame.len()) })
}

#[inline(always)]
pub fn header(frame: &[u8]) -> Answer<Header> {
    let mut row = call(function::MGL_HEADER, 0, frame)?;
    Ok(Header { message_type: row.next(), rate: row.next(), count: row.next(), version: row.next() })
}

#[inline(always)]
pub fn gps(frame: &[u8]) -> Answer<Gps> {
    let mut row = call(function::MGL_GPS, 0, frame)?;
    Ok(Gps {
        latitude: row.next(),
        longitude: row.next(),
        altitude: row.next(),
        agl: row.next(),
        north: row.next(),
        east: row.next(),
        down: row.next(),
        ground_speed: row.next(),
        track: row.next(),
        variation: row.next(),
        mode: row.next(),
        tracked: row.next(),
        visible: row.next(),
        horizontal_accuracy: row.next(),
        vertical_accuracy: row.next(),
        capability: row.next(),
        raim: row.next(),
        raim_horizontal_error: row.next(),
        raim_vertical_error: row.next(),
        valid: row.next_mark(),
        altitude_valid: row.next_mark(),
    })
}

#[inline(always)]
pub fn fuel_count(frame: &[u8]) -> Answer<u32> {
    Ok(call(function::MGL_FUEL_COUNT, 0, frame)?.next())
}

#[inline(always)]
pub fn fuel_tank(frame: &[u8], item: u32) -> Answer<Tank> {
    let mut row = call(function::MGL_FUEL_TANK, item, frame)?;
    Ok(Tank { level: row.next(), kind: row.next(), on: row.next(), sensors: row.next() })
}

#[inline(always)]
pub fn clock(frame: &[u8]) -> Answer<Clock> {
    call(function::MGL_CLOCK, 0, frame).map(clock_of)
}

#[inline(always)]
pub fn rmc_clock(frame: &[u8]) -> Answer<Clock> {
    call(function::RMC_CLOCK, 0, frame).map(clock_of)
}

#[inline(always)]
fn clock_of(mut row: Row) -> Clock {
    let (answer, seconds) = (row.next(), row.next());
    match answer {
        0 => Clock::Unset,
        1 => Clock::Good(seconds),
        2 => Clock::Wrong(Field::Month),
        3 => Clock::Wrong(Field::Day),
        4 => Clock::Wrong(Field::Hour),
        5 => Clock::Wrong(Field::Minute),
        6 => Clock::Wrong(Field::Second),
        7 => Clock::Wrong(Field::Year),
        other => misfit(other),
    }
}

#[inline(always)]
pub fn rmc_position(frame: &[u8]) -> Answer<Position> {
    let mut row = call(function::RMC_POSITION, 0, frame)?;
    Ok(Position { latitude: row.next(), longitude: row.next() })
}

#[inline(always)]
pub fn rmc_status(frame: &[u8]) -> Answer<Status> {
    let letter = call(function::RMC_STATUS, 0, frame)?.next();
    Ok(named([Status::Valid, Status::Warning], |status| status as i64, letter))
}

#[inline(always)]
pub fn setting(frame: &[u8]) -> Answer<Setting> {
    let mut row = call(function::PLARS_SETTING, 0, frame)?;
    let parameters = [Parameter::MacCready, Parameter::Ballast, Parameter::Bugs, Parameter::Qnh];
    Ok(Setting {
        source: named([Source::Larus, Source::Host], |source| source as i64, row.next()),
        parameter: named(parameters, |parameter| parameter as i64, row.next()),
        value: row.next(),
    })
}

/// The case with a number.
fn named<T: Copy, const N: usize>(cases: [T; N], number_of: fn(T) -> i64, number: i64) -> T {
    let case = cases.into_iter().fold(cases[0], |found, case| if number_of(case) == number { case } else { found });
    if number_of(case) != number {
        misfit(number);
    }
    case
}
