//! Format 3, NMEA with the LARUS sentences: RMC and PLARS, and the writers.
//!
//! Each field function takes one whole sentence. It refuses with [`Refusal::NotOneFrame`], [`Refusal::OtherMessage`]
//! and [`Refusal::OutOfForm`], in this order.

use crate::call;
use crate::ffi::function;
use crate::row::misfit;
use crate::{Clock, Format, Refusal};

/// A position in hundred-thousandths of a minute.
#[derive(Clone, Copy, Debug, PartialEq, Eq, Hash)]
pub struct Position {
    /// Latitude, north positive.
    pub latitude: i32,
    /// Longitude, east positive.
    pub longitude: i32,
}

/// The status of an RMC sentence.
#[derive(Clone, Copy, Debug, PartialEq, Eq, Hash)]
pub enum Status {
    /// `A`: data valid.
    Valid = b'A' as isize,
    /// `V`: navigation receiver warning.
    Warning = b'V' as isize,
}

/// Who sent a setting.
#[derive(Clone, Copy, Debug, PartialEq, Eq, Hash)]
pub enum Source {
    /// `L`: the LARUS sensor.
    Larus = b'L' as isize,
    /// `H`: the host.
    Host = b'H' as isize,
}

/// What is set.
#[derive(Clone, Copy, Debug, PartialEq, Eq, Hash)]
pub enum Parameter {
    /// `MC`, MacCready: 0.0 to 9.9, steps of 0.1.
    MacCready = 0,
    /// `BAL`, ballast: 0.000 to 1.000, steps of 0.001.
    Ballast = 1,
    /// `BUGS`, bugs: 0 to 50, steps of 1.
    Bugs = 2,
    /// `QNH`: 500.0 to 1200.0, steps of 0.1.
    Qnh = 3,
}

/// A setting, as a PLARS sentence has it.
#[derive(Clone, Copy, Debug, PartialEq, Eq, Hash)]
pub struct Setting {
    /// Who sent it.
    pub source: Source,
    /// What is set.
    pub parameter: Parameter,
    /// To which value, in steps of the last decimal.
    pub value: u32,
}

/// The body of a sentence, between `$` and `*`.
///
/// ```
/// assert_eq!(blossomaxle::nmea::body(b"$PLARB,12.33*4C\r\n"), Ok(&b"PLARB,12.33"[..]));
/// ```
#[inline]
pub fn body(frame: &[u8]) -> Result<&[u8], Refusal> {
    call::part(function::NMEA_BODY, frame)
}

/// The clock of an RMC sentence.
///
/// ```
/// use blossomaxle::{nmea, Clock};
///
/// let frame = b"$GPRMC,134943.69,A,4829.57602,N,1026.79034,E,057.0,081.9,170623,,,A*67\r\n";
/// assert_eq!(nmea::rmc_clock(frame), Ok(Clock::Good(1_687_009_783)));
/// ```
#[inline]
pub fn rmc_clock(frame: &[u8]) -> Result<Clock, Refusal> {
    call::read(function::RMC_CLOCK, frame).map(Clock::from_row)
}

/// The position of an RMC sentence.
///
/// ```
/// use blossomaxle::nmea;
///
/// let frame = b"$GPRMC,134943.69,A,4829.57602,N,1026.79034,E,057.0,081.9,170623,,,A*67\r\n";
/// let position = nmea::rmc_position(frame).unwrap();
/// assert_eq!(position, nmea::Position { latitude: 290_957_602, longitude: 62_679_034 });
/// ```
#[inline]
pub fn rmc_position(frame: &[u8]) -> Result<Position, Refusal> {
    let mut row = call::read(function::RMC_POSITION, frame)?;
    Ok(Position { latitude: row.next(), longitude: row.next() })
}

/// The status of an RMC sentence.
///
/// ```
/// use blossomaxle::nmea;
///
/// let frame = b"$GPRMC,134943.69,A,4829.57602,N,1026.79034,E,057.0,081.9,170623,,,A*67\r\n";
/// assert_eq!(nmea::rmc_status(frame), Ok(nmea::Status::Valid));
/// ```
#[inline]
pub fn rmc_status(frame: &[u8]) -> Result<Status, Refusal> {
    let letter = call::read(function::RMC_STATUS, frame)?.next();
    Ok(named([Status::Valid, Status::Warning], |status| status as i64, letter))
}

/// The setting of a PLARS sentence.
///
/// ```
/// use blossomaxle::nmea::{self, Parameter, Setting, Source};
///
/// let setting = nmea::setting(b"$PLARS,H,QNH,1031.4*76\r\n").unwrap();
/// assert_eq!(setting, Setting { source: Source::Host, parameter: Parameter::Qnh, value: 10_314 });
/// ```
#[inline]
pub fn setting(frame: &[u8]) -> Result<Setting, Refusal> {
    let mut row = call::read(function::PLARS_SETTING, frame)?;
    let parameters = [Parameter::MacCready, Parameter::Ballast, Parameter::Bugs, Parameter::Qnh];
    Ok(Setting {
        source: named([Source::Larus, Source::Host], |source| source as i64, row.next()),
        parameter: named(parameters, |parameter| parameter as i64, row.next()),
        value: row.next(),
    })
}

/// The case with a number. The library gives no number but theirs. Each case is looked at, so that no jump depends on
/// which it is.
fn named<T: Copy, const N: usize>(cases: [T; N], number_of: fn(T) -> i64, number: i64) -> T {
    let case = cases.into_iter().fold(cases[0], |found, case| if number_of(case) == number { case } else { found });
    if number_of(case) != number {
        misfit(number);
    }
    case
}

/// Writes a sentence at the start of the output, and says how long it is: 6 bytes more than the body.
///
/// A body that is not 1 to 76 permitted bytes is [`Refusal::NotWritable`]; an output that is too small is then
/// [`Refusal::OutputTooSmall`].
///
/// ```
/// use blossomaxle::{nmea, Refusal};
///
/// let mut out = [0; 82];
/// let length = nmea::write(b"PLARB,12.33", &mut out).unwrap();
/// assert_eq!(&out[..length], b"$PLARB,12.33*4C\r\n");
/// assert_eq!(nmea::write(b"a*b", &mut out), Err(Refusal::NotWritable));
/// assert_eq!(nmea::write(b"a", &mut out[..6]), Err(Refusal::OutputTooSmall));
/// ```
pub fn write(body: &[u8], out: &mut [u8]) -> Result<usize, Refusal> {
    call::write(Format::Nmea.number(), [0; 4], body, out)
}

/// Writes a PLARS sentence at the start of the output, and says how long it is.
///
/// A value out of its parameter's range is [`Refusal::OutOfForm`]; an output that is too small is then
/// [`Refusal::OutputTooSmall`].
///
/// ```
/// use blossomaxle::nmea::{self, Parameter, Setting, Source};
///
/// let mut out = [0; 82];
/// let setting = Setting { source: Source::Larus, parameter: Parameter::MacCready, value: 13 };
/// let length = nmea::write_setting(setting, &mut out).unwrap();
/// assert_eq!(&out[..length], b"$PLARS,L,MC,1.3*1E\r\n");
/// ```
pub fn write_setting(setting: Setting, out: &mut [u8]) -> Result<usize, Refusal> {
    call::write_setting(setting.source as u8, setting.parameter as u8, setting.value, out)
}
