//! Format 1, the MGL EFIS feed: header, GPS, fuel tanks, clock and gyro numbers of a frame, and the writer.
//!
//! Each field function takes one whole frame, and refuses with [`Refusal::NotOneFrame`], [`Refusal::OtherMessage`] and
//! [`Refusal::OutOfForm`], in this order. Numbers are as they stand in the frame.

use crate::call;
use crate::ffi::function;
use crate::{Clock, Format, Refusal};

/// What stands before the body of a frame.
#[derive(Clone, Copy, Debug, PartialEq, Eq, Hash)]
pub struct Header {
    /// The type of the message.
    pub message_type: u8,
    /// How many of it are sent a second.
    pub rate: u8,
    /// Its number within the second.
    pub count: u8,
    /// The version of the message.
    pub version: u8,
}

/// A GPS message: type 2, version 1.
#[derive(Clone, Copy, Debug, PartialEq, Eq, Hash)]
pub struct Gps {
    /// Latitude, in the paper's unit (`degrees / 180.000`), north positive.
    pub latitude: i32,
    /// Longitude, in the same unit, east positive.
    pub longitude: i32,
    /// GPS altitude in feet, of use only where `altitude_valid`.
    pub altitude: i32,
    /// Height above the ground.
    pub agl: i32,
    /// Velocity to the north, in centimetres a second.
    pub north: i32,
    /// Velocity to the east, in centimetres a second.
    pub east: i32,
    /// Velocity down, in centimetres a second.
    pub down: i32,
    /// Ground speed, in tenths of a kilometre an hour.
    pub ground_speed: u16,
    /// True track, in tenths of a degree.
    pub track: u16,
    /// Magnetic variation, in tenths of a degree, west negative.
    pub variation: i16,
    /// Mode: 0 acquiring, 1 dead reckoning, 2 and 4 a fix in two dimensions, 3 and 5 in three.
    pub mode: u8,
    /// Satellites tracked.
    pub tracked: u8,
    /// Satellites visible.
    pub visible: u8,
    /// Horizontal accuracy in feet.
    pub horizontal_accuracy: u8,
    /// Vertical accuracy in feet.
    pub vertical_accuracy: u8,
    /// Capability.
    pub capability: u8,
    /// RAIM status: 0, or the satellite that most likely failed.
    pub raim: u8,
    /// RAIM's horizontal error in feet.
    pub raim_horizontal_error: u8,
    /// RAIM's vertical error in feet.
    pub raim_vertical_error: u8,
    /// Whether anything here is of use: every mode but 0.
    pub valid: bool,
    /// Whether the altitude is: modes 3 and 5.
    pub altitude_valid: bool,
}

/// A tank of a fuel message.
#[derive(Clone, Copy, Debug, PartialEq, Eq, Hash)]
pub struct Tank {
    /// Level, in tenths of a litre.
    pub level: i32,
    /// Type of the tank: 0 with a level sender, 1 and 2 calculated.
    pub kind: u8,
    /// 0 off, 1 on, 2 unknown.
    pub on: u8,
    /// Sensors, as the unit's maker uses them.
    pub sensors: u16,
}

/// The body of a frame, between header and checksum.
///
/// ```
/// use blossomaxle::mgl;
///
/// let header = mgl::Header { message_type: 9, rate: 0, count: 0, version: 1 };
/// let mut out = [0; 276];
/// let length = mgl::write(header, b"twelve bytes", &mut out).unwrap();
/// assert_eq!(mgl::body(&out[..length]), Ok(&b"twelve bytes"[..]));
/// ```
#[inline]
pub fn body(frame: &[u8]) -> Result<&[u8], Refusal> {
    call::part(function::MGL_BODY, frame)
}

/// The header of a frame.
///
/// ```
/// use blossomaxle::mgl;
///
/// let header = mgl::Header { message_type: 9, rate: 3, count: 20, version: 1 };
/// let mut out = [0; 24];
/// mgl::write(header, &[0; 12], &mut out).unwrap();
/// assert_eq!(mgl::header(&out), Ok(header));
/// ```
#[inline]
pub fn header(frame: &[u8]) -> Result<Header, Refusal> {
    let mut row = call::read(function::MGL_HEADER, frame)?;
    Ok(Header { message_type: row.next(), rate: row.next(), count: row.next(), version: row.next() })
}

/// The GPS message of a frame.
///
/// ```
/// use blossomaxle::mgl;
///
/// let header = mgl::Header { message_type: 2, rate: 0, count: 0, version: 1 };
/// let mut body = [0; 44];
/// body[0..4].copy_from_slice(&(-8_900_000i32).to_le_bytes());
/// body[34] = 2;
/// let mut out = [0; 56];
/// mgl::write(header, &body, &mut out).unwrap();
/// let gps = mgl::gps(&out).unwrap();
/// assert_eq!((gps.latitude, gps.mode), (-8_900_000, 2));
/// assert!(gps.valid && !gps.altitude_valid);
/// ```
#[inline]
pub fn gps(frame: &[u8]) -> Result<Gps, Refusal> {
    let mut row = call::read(function::MGL_GPS, frame)?;
    Ok(Gps {
        latitude: row.next(),
        longitude: row.next(),
        altitude: row.next(),
        agl: row.next(),
        north: row.next(),
        east: row.next(),
        down: row.next(),
        ground_speed: row.next(),
        track: row.next(),
        variation: row.next(),
        mode: row.next(),
        tracked: row.next(),
        visible: row.next(),
        horizontal_accuracy: row.next(),
        vertical_accuracy: row.next(),
        capability: row.next(),
        raim: row.next(),
        raim_horizontal_error: row.next(),
        raim_vertical_error: row.next(),
        valid: row.next_mark(),
        altitude_valid: row.next_mark(),
    })
}

/// How many tanks a fuel message has: type 11, version 1.
///
/// ```
/// use blossomaxle::mgl;
///
/// let header = mgl::Header { message_type: 11, rate: 0, count: 0, version: 1 };
/// let body = [2, 0, 0, 0, 50, 0, 0, 0, 1, 1, 0, 2, 60, 0, 0, 0, 1, 0, 0, 2];
/// let mut out = [0; 32];
/// mgl::write(header, &body, &mut out).unwrap();
/// assert_eq!(mgl::fuel_count(&out), Ok(2));
/// ```
#[inline]
pub fn fuel_count(frame: &[u8]) -> Result<u32, Refusal> {
    Ok(call::read(function::MGL_FUEL_COUNT, frame)?.next())
}

/// A tank of a fuel message, numbered from 0; one past the last is [`Refusal::OutOfForm`].
///
/// ```
/// use blossomaxle::{mgl, Refusal};
///
/// let header = mgl::Header { message_type: 11, rate: 0, count: 0, version: 1 };
/// let mut out = [0; 24];
/// mgl::write(header, &[1, 0, 0, 0, 50, 0, 0, 0, 1, 1, 0, 2], &mut out).unwrap();
/// assert_eq!(mgl::fuel_tank(&out, 0), Ok(mgl::Tank { level: 50, kind: 1, on: 1, sensors: 512 }));
/// assert_eq!(mgl::fuel_tank(&out, 1), Err(Refusal::OutOfForm));
/// ```
#[inline]
pub fn fuel_tank(frame: &[u8], item: u32) -> Result<Tank, Refusal> {
    let mut row = call::read_item(function::MGL_FUEL_TANK, item, frame)?;
    Ok(Tank { level: row.next(), kind: row.next(), on: row.next(), sensors: row.next() })
}

/// The clock of a primary flight message: type 1, version 1.
///
/// ```
/// use blossomaxle::{mgl, Clock};
///
/// let header = mgl::Header { message_type: 1, rate: 0, count: 0, version: 1 };
/// let mut body = [0; 32];
/// body[24..30].copy_from_slice(&[13, 49, 43, 17, 6, 23]);
/// let mut out = [0; 44];
/// mgl::write(header, &body, &mut out).unwrap();
/// assert_eq!(mgl::clock(&out), Ok(Clock::Good(1_687_009_783)));
/// ```
#[inline]
pub fn clock(frame: &[u8]) -> Result<Clock, Refusal> {
    call::read(function::MGL_CLOCK, frame).map(Clock::from_row)
}

/// The rate that a gyro number stands for, in hundredths of a degree a second.
///
/// ```
/// use blossomaxle::mgl;
///
/// assert_eq!(mgl::gyro(8945), 8_945);
/// assert_eq!(mgl::gyro(-32768), -192_680);
/// ```
pub fn gyro(number: i16) -> i32 {
    call::gyro(number)
}

/// The gyro number that stands for a rate, or [`Refusal::OutOfForm`] where none does.
///
/// ```
/// use blossomaxle::{mgl, Refusal};
///
/// assert_eq!(mgl::write_gyro(34_530), Ok(16953));
/// assert_eq!(mgl::write_gyro(34_531), Err(Refusal::OutOfForm));
/// ```
pub fn write_gyro(rate: i32) -> Result<i16, Refusal> {
    Ok(call::write_gyro(rate)?.next())
}

/// Writes a frame at the start of the output, and says how long it is: 12 bytes more than the body.
///
/// A body whose length is no multiple of 4 from 12 to 264 is [`Refusal::NotWritable`]; an output that is too small is
/// then [`Refusal::OutputTooSmall`].
///
/// ```
/// use blossomaxle::{mgl, Refusal};
///
/// let header = mgl::Header { message_type: 9, rate: 0, count: 0, version: 1 };
/// let mut out = [0; 30];
/// assert_eq!(mgl::write(header, &[0; 13], &mut out), Err(Refusal::NotWritable));
/// assert_eq!(mgl::write(header, &[0; 20], &mut out), Err(Refusal::OutputTooSmall));
/// assert_eq!(mgl::write(header, &[0; 16], &mut out), Ok(28));
/// assert_eq!(out[..8], [5, 2, 8, 247, 9, 0, 0, 1]);
/// ```
pub fn write(header: Header, body: &[u8], out: &mut [u8]) -> Result<usize, Refusal> {
    let bytes = [header.message_type, header.rate, header.count, header.version];
    call::write(Format::Mgl.number(), bytes, body, out)
}
