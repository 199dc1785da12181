//! The same calls by the crate's typed functions, flattened to numbers again.

use crate::ffi::{function, ratio};
use crate::oracle::answer::Answer;
use crate::oracle::reader::Call;
use blossomaxle::nmea::{Parameter, Setting, Source};
use blossomaxle::{bench, mgl, nmea, onflight, Clock, Field, Format, Frames, Reader, Refusal};

/// A typed answer as values.
fn flat<T>(answer: Result<T, Refusal>, values: impl FnOnce(T) -> Vec<i64>) -> Answer {
    answer.map(values).map_err(Refusal::number).into()
}

/// One number as values.
fn one<T: Into<i64>>(answer: Result<T, Refusal>) -> Answer {
    flat(answer, |value| vec![value.into()])
}

/// A number of bytes, or the number of a refusal, as the library answers it.
fn length(answer: Result<usize, Refusal>) -> (u32, usize) {
    answer.map_or_else(|refusal| (refusal.number(), 0), |length| (0, length))
}

/// The bytes of a fresh reader.
pub fn fresh(format: u32) -> Result<Vec<u8>, u32> {
    Reader::fresh(format).map(|reader| reader.as_bytes().to_vec()).map_err(Refusal::number)
}

/// A call, and the reader's bytes afterwards.
pub fn serve(bytes: &[u8], call: Call, out: &mut [u8]) -> (Result<usize, u32>, Vec<u8>) {
    let mut reader = match Reader::from_bytes(bytes) {
        Ok(reader) => reader,
        Err(refusal) => return (Err(refusal.number()), bytes.to_vec()),
    };
    let answer = match call {
        Call::Piece(piece) => reader.piece(piece, out),
        Call::Close => reader.close(out),
    };
    (answer.map_err(Refusal::number), reader.as_bytes().to_vec())
}

/// The frames that stand back to back.
pub fn frames(format: u32, handed: &[u8]) -> Frames<'_> {
    Frames::new(Format::from_number(format).expect("a known format"), handed)
}

/// The length of the frame that bytes begin with, or 0.
pub fn frame_len(format: u32, bytes: &[u8]) -> usize {
    blossomaxle::frame_len(Format::from_number(format).expect("a known format"), bytes).unwrap_or(0)
}

/// The field function with a number, if the crate has one.
pub fn read(function: u32, item: u32, frame: &[u8]) -> Option<Answer> {
    Some(match function {
        100..200 => read_mgl(function, item, frame)?,
        200..300 => read_onflight(function, frame)?,
        _ => read_nmea(function, frame)?,
    })
}

fn read_mgl(function: u32, item: u32, frame: &[u8]) -> Option<Answer> {
    Some(match function {
        function::MGL_BODY => place(mgl::body(frame), frame),
        function::MGL_HEADER => flat(mgl::header(frame), |header| {
            vec![header.message_type.into(), header.rate.into(), header.count.into(), header.version.into()]
        }),
        function::MGL_GPS => flat(mgl::gps(frame), gps_values),
        function::MGL_FUEL_COUNT => one(mgl::fuel_count(frame)),
        function::MGL_FUEL_TANK => flat(mgl::fuel_tank(frame, item), |tank| {
            vec![tank.level.into(), tank.kind.into(), tank.on.into(), tank.sensors.into()]
        }),
        function::MGL_CLOCK => flat(mgl::clock(frame), clock_values),
        _ => return None,
    })
}

fn read_onflight(function: u32, frame: &[u8]) -> Option<Answer> {
    let axes = |axes: onflight::Axes| vec![axes.x.into(), axes.y.into(), axes.z.into()];
    let position = |at: onflight::Position| vec![at.latitude.into(), at.longitude.into()];
    Some(match function {
        function::ONFLIGHT_BODY => place(onflight::body(frame), frame),
        function::ONFLIGHT_STATUS => flat(onflight::status(frame), |bytes| bytes.map(i64::from).to_vec()),
        function::ONFLIGHT_SET_BITS => one(onflight::set_bits(frame)),
        function::ONFLIGHT_BOOT_TIME => one(onflight::boot_time(frame)),
        function::ONFLIGHT_CLOCK => flat(onflight::clock(frame), clock_values),
        function::ONFLIGHT_VOLTAGES => {
            flat(onflight::voltages(frame), |both| vec![both.input.into(), both.filtered.into()])
        }
        function::ONFLIGHT_ACCELERATIONS => flat(onflight::accelerations(frame), axes),
        function::ONFLIGHT_GYROS => flat(onflight::gyros(frame), axes),
        function::ONFLIGHT_PRESSURE => one(onflight::pressure(frame)),
        function::ONFLIGHT_FIX => flat(onflight::fix(frame), |fix| vec![fix.fix.into(), fix.satellites.into()]),
        function::ONFLIGHT_GNSS_POSITION => flat(onflight::gnss_position(frame), position),
        function::ONFLIGHT_INS_POSITION => flat(onflight::ins_position(frame), position),
        function::ONFLIGHT_GNSS_ALTITUDE => one(onflight::gnss_altitude(frame)),
        function::ONFLIGHT_INS_ALTITUDE => one(onflight::ins_altitude(frame)),
        _ => return None,
    })
}

fn read_nmea(function: u32, frame: &[u8]) -> Option<Answer> {
    Some(match function {
        function::NMEA_BODY => place(nmea::body(frame), frame),
        function::RMC_CLOCK => flat(nmea::rmc_clock(frame), clock_values),
        function::RMC_POSITION => flat(nmea::rmc_position(frame), |at| vec![at.latitude.into(), at.longitude.into()]),
        function::RMC_STATUS => flat(nmea::rmc_status(frame), |status| match status {
            nmea::Status::Valid => vec![b'A'.into()],
            nmea::Status::Warning => vec![b'V'.into()],
        }),
        function::PLARS_SETTING => flat(nmea::setting(frame), setting_values),
        _ => return None,
    })
}

/// Where a part starts and ends in its frame.
fn place(part: Result<&[u8], Refusal>, frame: &[u8]) -> Answer {
    flat(part, |part| {
        let start = part.as_ptr() as usize - frame.as_ptr() as usize;
        vec![start as i64, (start + part.len()) as i64]
    })
}

fn gps_values(gps: mgl::Gps) -> Vec<i64> {
    let words = [gps.latitude, gps.longitude, gps.altitude, gps.agl, gps.north, gps.east, gps.down];
    let halves = [gps.ground_speed.into(), gps.track.into(), gps.variation.into()];
    let bytes = [
        gps.mode,
        gps.tracked,
        gps.visible,
        gps.horizontal_accuracy,
        gps.vertical_accuracy,
        gps.capability,
        gps.raim,
        gps.raim_horizontal_error,
        gps.raim_vertical_error,
        gps.valid.into(),
        gps.altitude_valid.into(),
    ];
    words.into_iter().map(i64::from).chain(halves).chain(bytes.map(i64::from)).collect()
}

fn clock_values(clock: Clock) -> Vec<i64> {
    match clock {
        Clock::Unset => vec![0, 0],
        Clock::Good(seconds) => vec![1, seconds],
        Clock::Wrong(Field::Month) => vec![2, 0],
        Clock::Wrong(Field::Day) => vec![3, 0],
        Clock::Wrong(Field::Hour) => vec![4, 0],
        Clock::Wrong(Field::Minute) => vec![5, 0],
        Clock::Wrong(Field::Second) => vec![6, 0],
        Clock::Wrong(Field::Year) => vec![7, 0],
    }
}

/// The sources and parameters with their numbers.
const SOURCES: [(Source, u8); 2] = [(Source::Larus, b'L'), (Source::Host, b'H')];
const PARAMETERS: [(Parameter, u8); 4] =
    [(Parameter::MacCready, 0), (Parameter::Ballast, 1), (Parameter::Bugs, 2), (Parameter::Qnh, 3)];

fn setting_values(setting: Setting) -> Vec<i64> {
    let source = SOURCES.into_iter().find(|(source, _)| *source == setting.source);
    let parameter = PARAMETERS.into_iter().find(|(parameter, _)| *parameter == setting.parameter);
    let numbers = [source.map(|(_, number)| number), parameter.map(|(_, number)| number)];
    numbers.into_iter().flatten().map(i64::from).chain([setting.value.into()]).collect()
}

/// The setting with a source's and a parameter's number, if there are such.
fn setting(source: u8, parameter: u8, value: u32) -> Option<Setting> {
    let (source, _) = SOURCES.into_iter().find(|(_, number)| *number == source)?;
    let (parameter, _) = PARAMETERS.into_iter().find(|(_, number)| *number == parameter)?;
    Some(Setting { source, parameter, value })
}

pub fn is_setting(source: u8, parameter: u8) -> bool {
    setting(source, parameter, 0).is_some()
}

pub fn write_setting(source: u8, parameter: u8, value: u32, out: &mut [u8]) -> (u32, usize) {
    let setting = setting(source, parameter, value).expect("a source and a parameter that there are");
    length(nmea::write_setting(setting, out))
}

pub fn write(format: u32, header: u32, body: &[u8], out: &mut [u8]) -> (u32, usize) {
    let [message_type, rate, count, version] = header.to_le_bytes();
    length(match Format::from_number(format).expect("a known format") {
        Format::Mgl => mgl::write(mgl::Header { message_type, rate, count, version }, body, out),
        Format::OnFlight => onflight::write(body, out),
        Format::Nmea => nmea::write(body, out),
    })
}

/// The field function with a number, of those that answer a float, if the crate has one.
pub fn ratio(function: u32, frame: &[u8]) -> Option<Result<f64, u32>> {
    let answer = match function {
        ratio::ONFLIGHT_INPUT_VOLTAGE => onflight::input_voltage(frame),
        ratio::ONFLIGHT_LOAD_FACTOR => onflight::load_factor(frame),
        _ => return None,
    };
    Some(answer.map_err(Refusal::number))
}

pub fn elapsed(from: &[u8], to: &[u8]) -> Result<i64, u32> {
    onflight::elapsed(from, to).map(i64::from).map_err(Refusal::number)
}

pub fn gyro(number: i16) -> i32 {
    mgl::gyro(number)
}

pub fn write_gyro(rate: i32) -> Answer {
    one(mgl::write_gyro(rate))
}

/// An entry, without the number of entries.
pub fn entry(first: &[u8], file_len: u64, item: u32) -> Answer {
    flat(bench::entry(first, file_len, item), |entry| {
        vec![0, entry.format.number().into(), entry.port.into(), entry.length.into(), entry.start as i64]
    })
}

/// How many entries the crate says there are, and how many it lists.
pub fn counts(first: &[u8], file_len: u64) -> Result<(usize, usize), u32> {
    let counts = || Ok((bench::count(first, file_len)? as usize, bench::entries(first, file_len)?.count()));
    counts().map_err(Refusal::number)
}
