//! Format 2, the OnFlight log, version 1: the fields of a frame, and the writer.
//!
//! Each field function takes one whole frame; anything else is [`Refusal::NotOneFrame`]. Only [`fix`] has another
//! refusal.

use crate::call;
use crate::ffi::{function, ratio};
use crate::{Clock, Format, Refusal};

/// Both voltages, 25 a volt.
#[derive(Clone, Copy, Debug, PartialEq, Eq, Hash)]
pub struct Voltages {
    /// Input voltage.
    pub input: u8,
    /// Filtered input voltage.
    pub filtered: u8,
}

/// Three axes.
#[derive(Clone, Copy, Debug, PartialEq, Eq, Hash)]
pub struct Axes {
    /// Along x.
    pub x: i16,
    /// Along y.
    pub y: i16,
    /// Along z.
    pub z: i16,
}

/// The GNSS fix.
#[derive(Clone, Copy, Debug, PartialEq, Eq, Hash)]
pub struct Fix {
    /// 0 for none, 2 for two dimensions, 3 for three, 4 for differential.
    pub fix: u8,
    /// Satellites in the solution.
    pub satellites: u8,
}

/// A position in ten-millionths of a degree.
#[derive(Clone, Copy, Debug, PartialEq, Eq, Hash)]
pub struct Position {
    /// Latitude, north positive.
    pub latitude: i32,
    /// Longitude, east positive.
    pub longitude: i32,
}

/// The payload of a frame, 152 bytes.
///
/// ```
/// use blossomaxle::onflight;
///
/// let mut frame = [0; 158];
/// onflight::write(&[7; 152], &mut frame).unwrap();
/// assert_eq!(onflight::body(&frame), Ok(&[7; 152][..]));
/// ```
#[inline]
pub fn body(frame: &[u8]) -> Result<&[u8], Refusal> {
    call::part(function::ONFLIGHT_BODY, frame)
}

/// The six status bytes.
///
/// ```
/// use blossomaxle::onflight;
///
/// let mut frame = [0; 158];
/// onflight::write(&[7; 152], &mut frame).unwrap();
/// assert_eq!(onflight::status(&frame), Ok([7; 6]));
/// ```
#[inline]
pub fn status(frame: &[u8]) -> Result<[u8; 6], Refusal> {
    let mut row = call::read(function::ONFLIGHT_STATUS, frame)?;
    Ok(std::array::from_fn(|_| row.next()))
}

/// How many of the 42 named status bits are set.
///
/// ```
/// use blossomaxle::onflight;
///
/// let mut frame = [0; 158];
/// onflight::write(&[255; 152], &mut frame).unwrap();
/// assert_eq!(onflight::set_bits(&frame), Ok(42));
/// ```
#[inline]
pub fn set_bits(frame: &[u8]) -> Result<u32, Refusal> {
    Ok(call::read(function::ONFLIGHT_SET_BITS, frame)?.next())
}

/// Milliseconds since boot; they roll over.
///
/// ```
/// use blossomaxle::onflight;
///
/// let mut frame = [0; 158];
/// onflight::write(&[1; 152], &mut frame).unwrap();
/// assert_eq!(onflight::boot_time(&frame), Ok(0x0101_0101));
/// ```
#[inline]
pub fn boot_time(frame: &[u8]) -> Result<u32, Refusal> {
    Ok(call::read(function::ONFLIGHT_BOOT_TIME, frame)?.next())
}

/// Milliseconds from one frame to another, over a roll-over of the time since boot too.
///
/// ```
/// use blossomaxle::onflight;
///
/// let (mut a, mut b) = ([0; 158], [0; 158]);
/// onflight::write(&[0; 152], &mut a).unwrap();
/// onflight::write(&[255; 152], &mut b).unwrap();
/// assert_eq!(onflight::elapsed(&b, &a), Ok(1));
/// ```
pub fn elapsed(from: &[u8], to: &[u8]) -> Result<u32, Refusal> {
    Ok(call::elapsed(from, to)?.next())
}

/// The GNSS clock.
///
/// ```
/// use blossomaxle::{onflight, Clock, Field};
///
/// let mut payload = [0; 152];
/// let mut frame = [0; 158];
/// onflight::write(&payload, &mut frame).unwrap();
/// assert_eq!(onflight::clock(&frame), Ok(Clock::Unset));
/// payload[37..43].copy_from_slice(&[130, 2, 29, 0, 0, 0]);
/// onflight::write(&payload, &mut frame).unwrap();
/// assert_eq!(onflight::clock(&frame), Ok(Clock::Wrong(Field::Day)));
/// ```
#[inline]
pub fn clock(frame: &[u8]) -> Result<Clock, Refusal> {
    call::read(function::ONFLIGHT_CLOCK, frame).map(Clock::from_row)
}

/// Input voltage and filtered input voltage, as they stand in the frame.
///
/// ```
/// use blossomaxle::onflight;
///
/// let mut frame = [0; 158];
/// onflight::write(&[250; 152], &mut frame).unwrap();
/// assert_eq!(onflight::voltages(&frame), Ok(onflight::Voltages { input: 250, filtered: 250 }));
/// ```
#[inline]
pub fn voltages(frame: &[u8]) -> Result<Voltages, Refusal> {
    let mut row = call::read(function::ONFLIGHT_VOLTAGES, frame)?;
    Ok(Voltages { input: row.next(), filtered: row.next() })
}

/// Input voltage in volts: one rounded division.
///
/// ```
/// use blossomaxle::onflight;
///
/// let mut frame = [0; 158];
/// onflight::write(&[250; 152], &mut frame).unwrap();
/// assert_eq!(onflight::input_voltage(&frame), Ok(10.0));
/// ```
#[inline]
pub fn input_voltage(frame: &[u8]) -> Result<f64, Refusal> {
    call::ratio(ratio::ONFLIGHT_INPUT_VOLTAGE, frame)
}

/// Load factor in g: one rounded division.
///
/// ```
/// use blossomaxle::onflight;
///
/// let mut payload = [0; 152];
/// payload[76..78].copy_from_slice(&(-1500i16).to_le_bytes());
/// let mut frame = [0; 158];
/// onflight::write(&payload, &mut frame).unwrap();
/// assert_eq!(onflight::load_factor(&frame), Ok(-1.5));
/// ```
#[inline]
pub fn load_factor(frame: &[u8]) -> Result<f64, Refusal> {
    call::ratio(ratio::ONFLIGHT_LOAD_FACTOR, frame)
}

/// IMU accelerations, 1000 a g.
///
/// ```
/// use blossomaxle::onflight;
///
/// let mut frame = [0; 158];
/// onflight::write(&[255; 152], &mut frame).unwrap();
/// assert_eq!(onflight::accelerations(&frame), Ok(onflight::Axes { x: -1, y: -1, z: -1 }));
/// ```
#[inline]
pub fn accelerations(frame: &[u8]) -> Result<Axes, Refusal> {
    axes(function::ONFLIGHT_ACCELERATIONS, frame)
}

/// IMU gyros, 10 a degree a second.
///
/// ```
/// use blossomaxle::onflight;
///
/// let mut frame = [0; 158];
/// onflight::write(&[1; 152], &mut frame).unwrap();
/// assert_eq!(onflight::gyros(&frame), Ok(onflight::Axes { x: 257, y: 257, z: 257 }));
/// ```
#[inline]
pub fn gyros(frame: &[u8]) -> Result<Axes, Refusal> {
    axes(function::ONFLIGHT_GYROS, frame)
}

#[inline]
fn axes(function: u32, frame: &[u8]) -> Result<Axes, Refusal> {
    let mut row = call::read(function, frame)?;
    Ok(Axes { x: row.next(), y: row.next(), z: row.next() })
}

/// Static pressure in pascals.
///
/// ```
/// use blossomaxle::onflight;
///
/// let mut frame = [0; 158];
/// onflight::write(&[255; 152], &mut frame).unwrap();
/// assert_eq!(onflight::pressure(&frame), Ok(131_070));
/// ```
#[inline]
pub fn pressure(frame: &[u8]) -> Result<u32, Refusal> {
    Ok(call::read(function::ONFLIGHT_PRESSURE, frame)?.next())
}

/// The fix and its satellites; a fix of 1, 5, 6 or 7 is [`Refusal::OutOfForm`].
///
/// ```
/// use blossomaxle::{onflight, Refusal};
///
/// let mut payload = [0; 152];
/// let mut frame = [0; 158];
/// payload[36] = 9 << 3 | 3;
/// onflight::write(&payload, &mut frame).unwrap();
/// assert_eq!(onflight::fix(&frame), Ok(onflight::Fix { fix: 3, satellites: 9 }));
/// payload[36] = 9 << 3 | 5;
/// onflight::write(&payload, &mut frame).unwrap();
/// assert_eq!(onflight::fix(&frame), Err(Refusal::OutOfForm));
/// ```
#[inline]
pub fn fix(frame: &[u8]) -> Result<Fix, Refusal> {
    let mut row = call::read(function::ONFLIGHT_FIX, frame)?;
    Ok(Fix { fix: row.next(), satellites: row.next() })
}

/// The position of the GNSS receiver.
///
/// ```
/// use blossomaxle::onflight;
///
/// let mut frame = [0; 158];
/// onflight::write(&[255; 152], &mut frame).unwrap();
/// assert_eq!(onflight::gnss_position(&frame), Ok(onflight::Position { latitude: -1, longitude: -1 }));
/// ```
#[inline]
pub fn gnss_position(frame: &[u8]) -> Result<Position, Refusal> {
    position(function::ONFLIGHT_GNSS_POSITION, frame)
}

/// The position of the inertial system.
///
/// ```
/// use blossomaxle::onflight;
///
/// let mut frame = [0; 158];
/// onflight::write(&[0; 152], &mut frame).unwrap();
/// assert_eq!(onflight::ins_position(&frame), Ok(onflight::Position { latitude: 0, longitude: 0 }));
/// ```
#[inline]
pub fn ins_position(frame: &[u8]) -> Result<Position, Refusal> {
    position(function::ONFLIGHT_INS_POSITION, frame)
}

#[inline]
fn position(function: u32, frame: &[u8]) -> Result<Position, Refusal> {
    let mut row = call::read(function, frame)?;
    Ok(Position { latitude: row.next(), longitude: row.next() })
}

/// The altitude of the GNSS receiver, in feet above the WGS84 ellipsoid.
///
/// ```
/// use blossomaxle::onflight;
///
/// let mut frame = [0; 158];
/// onflight::write(&[0; 152], &mut frame).unwrap();
/// assert_eq!(onflight::gnss_altitude(&frame), Ok(-10_000));
/// ```
#[inline]
pub fn gnss_altitude(frame: &[u8]) -> Result<i32, Refusal> {
    Ok(call::read(function::ONFLIGHT_GNSS_ALTITUDE, frame)?.next())
}

/// The altitude of the inertial system, in feet above the WGS84 ellipsoid.
///
/// ```
/// use blossomaxle::onflight;
///
/// let mut frame = [0; 158];
/// onflight::write(&[255; 152], &mut frame).unwrap();
/// assert_eq!(onflight::ins_altitude(&frame), Ok(55_535));
/// ```
#[inline]
pub fn ins_altitude(frame: &[u8]) -> Result<i32, Refusal> {
    Ok(call::read(function::ONFLIGHT_INS_ALTITUDE, frame)?.next())
}

/// Writes a frame of 158 bytes at the start of the output, and says so.
///
/// A payload that is not 152 bytes is [`Refusal::NotWritable`]; an output that is too small is then
/// [`Refusal::OutputTooSmall`].
///
/// ```
/// use blossomaxle::{onflight, Refusal};
///
/// let mut frame = [0; 158];
/// assert_eq!(onflight::write(&[0; 151], &mut frame), Err(Refusal::NotWritable));
/// assert_eq!(onflight::write(&[0; 152], &mut frame[1..]), Err(Refusal::OutputTooSmall));
/// assert_eq!(onflight::write(&[0; 152], &mut frame), Ok(158));
/// assert_eq!(frame[..4], *b"BF\x01\x98");
/// ```
pub fn write(payload: &[u8], out: &mut [u8]) -> Result<usize, Refusal> {
    call::write(Format::OnFlight.number(), [0; 4], payload, out)
}
