//! What a field function answers: a number, and values that are zeros beside a refusal.

use super::{calendar, mgl, nmea, onflight, plars};

/// The values of a field function, or the number of its refusal.
pub type Judged = Result<Vec<i64>, u32>;

/// A number and 21 values.
#[derive(Clone, Debug, PartialEq, Eq)]
pub struct Answer {
    pub number: u32,
    pub values: [i64; 21],
}

impl From<Judged> for Answer {
    fn from(judged: Judged) -> Answer {
        let mut answer = Answer { number: 0, values: [0; 21] };
        match judged {
            Ok(values) => answer.values[..values.len()].copy_from_slice(&values),
            Err(number) => answer.number = number,
        }
        answer
    }
}

/// The bytes are one whole frame of the format, or refusal 7.
pub fn one_frame(format: u32, frame: &[u8]) -> Result<(), u32> {
    if super::shape::is_frame(format, frame) {
        Ok(())
    } else {
        Err(7)
    }
}

/// The value, or the refusal where the rule does not hold.
pub fn require(rule: bool, refusal: u32) -> Result<(), u32> {
    if rule {
        Ok(())
    } else {
        Err(refusal)
    }
}

/// The clock's number and its seconds.
pub fn clock_values(clock: calendar::Clock) -> Vec<i64> {
    match clock {
        calendar::Clock::Unset => vec![0, 0],
        calendar::Clock::Good(seconds) => vec![1, seconds],
        calendar::Clock::Wrong(place) => vec![2 + place as i64, 0],
    }
}

/// The field function with a number; an unknown one is 7.
pub fn read(function: u32, item: u32, frame: &[u8]) -> Answer {
    match function {
        100 => mgl::body(frame),
        101 => mgl::header(frame),
        102 => mgl::gps(frame),
        103 => mgl::fuel_count(frame),
        104 => mgl::fuel_tank(frame, item),
        105 => mgl::clock(frame),
        200 => onflight::body(frame),
        201 => onflight::status(frame),
        202 => onflight::set_bits(frame),
        203 => onflight::boot_time(frame),
        204 => onflight::clock(frame),
        205 => onflight::voltages(frame),
        206 => onflight::accelerations(frame),
        207 => onflight::gyros(frame),
        208 => onflight::pressure(frame),
        209 => onflight::fix(frame),
        210 => onflight::gnss_position(frame),
        211 => onflight::ins_position(frame),
        212 => onflight::gnss_altitude(frame),
        213 => onflight::ins_altitude(frame),
        300 => nmea::body(frame),
        301 => nmea::rmc_clock(frame),
        302 => nmea::rmc_position(frame),
        303 => nmea::rmc_status(frame),
        304 => plars::setting(frame),
        _ => Err(7),
    }
    .into()
}

/// The same for the field functions that answer a float; an unknown one is 7, and a refused one is 0.
pub fn ratio(function: u32, frame: &[u8]) -> (u32, f64) {
    let judged = match function {
        214 => onflight::input_voltage(frame),
        215 => onflight::load_factor(frame),
        _ => Err(7),
    };
    judged.map_or_else(|number| (number, 0.0), |value| (0, value))
}

/// Milliseconds from one OnFlight frame to another.
pub fn elapsed(from: &[u8], to: &[u8]) -> Answer {
    onflight::elapsed(from, to).into()
}
