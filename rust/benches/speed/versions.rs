//! Two versions of the library and the reader by hand in one program. The compiler makes a different reader by hand in
//! each program, and the machine's speed changes from run to run. Here both versions take turns with one reader by hand,
//! so that their ratios depend on neither.

use crate::field_functions::PASSES;
use crate::interface::function;
use crate::loaded::{Library, Reader};
use crate::messages::{self, Maker, FRAMES};
use crate::plain;
use crate::readers;
use crate::report::{self, Change};
use crate::rules::{Mgl, Nmea, OnFlight, Rules};
use crate::timing::medians;
use blossomaxle::{Format, MAX_OUTPUT};
use std::env;
use std::ffi::CString;
use std::hint::black_box;
use std::os::unix::ffi::OsStringExt;

/// The version before, and the one now.
pub type Versions = [Library; 2];

/// A field function with a row: its name, its number, and what its good frames are made of.
type Fields = (&'static str, u32, Format, Maker);

const FIELDS: [Fields; 10] = [
    ("MGL header", function::MGL_HEADER, Format::Mgl, messages::gps),
    ("MGL GPS", function::MGL_GPS, Format::Mgl, messages::gps),
    ("MGL clock", function::MGL_CLOCK, Format::Mgl, messages::primary),
    ("MGL fuel count", function::MGL_FUEL_COUNT, Format::Mgl, messages::fuel),
    ("MGL fuel tank 0", function::MGL_FUEL_TANK, Format::Mgl, messages::fuel),
    ("OnFlight clock", function::ONFLIGHT_CLOCK, Format::OnFlight, messages::onflight),
    ("RMC clock", function::RMC_CLOCK, Format::Nmea, messages::rmc),
    ("RMC position", function::RMC_POSITION, Format::Nmea, messages::rmc),
    ("RMC status", function::RMC_STATUS, Format::Nmea, messages::rmc),
    ("PLARS setting", function::PLARS_SETTING, Format::Nmea, messages::plars),
];

/// The versions that the environment names, or why there are none.
pub fn load() -> Result<Versions, String> {
    Ok([version("BLOSSOMAXLE_BEFORE")?, version("BLOSSOMAXLE_NOW")?])
}

fn version(variable: &str) -> Result<Library, String> {
    let path = env::var_os(variable).ok_or_else(|| format!("{variable} is not set: run `tests/speed versions DIR`"))?;
    let path = CString::new(path.into_vec()).map_err(|_| format!("{variable} is no path"))?;
    Library::load(&path)
}

/// Measures both on lines of so many bytes of every format, and their field functions.
pub fn measure(versions: &Versions, size: usize) {
    report::versions_head(readers::PREFIX.min(size));
    let mut changes = measure_format::<Mgl>("MGL", versions, size);
    changes.extend(measure_format::<OnFlight>("OnFlight", versions, size));
    changes.extend(measure_format::<Nmea>("NMEA", versions, size));
    report::version_fields_head(FRAMES);
    changes.extend(FIELDS.map(|fields| measure_fields(fields, versions)));
    report::least(&changes);
}

/// The rows that have a goal.
fn measure_format<F: Rules>(format: &str, versions: &Versions, size: usize) -> Vec<Change> {
    let mut changes = Vec::new();
    for (name, line) in &readers::lines::<F>(size) {
        for piece in readers::PIECES.into_iter().filter(|piece| readers::goal(name, *piece).is_some()) {
            let speeds = speeds::<F>(name, versions, readers::part(line, piece), piece);
            changes.push(report::versions_row(&format!("{format} {name}"), piece, speeds));
        }
    }
    changes
}

/// Bytes a second by the version before, the one now and the reader by hand, after all three were compared.
fn speeds<F: Rules>(name: &str, versions: &Versions, line: &[u8], piece: usize) -> [f64; 3] {
    for (version, library) in ["before", "now"].iter().zip(versions) {
        compare::<F>(&format!("{version}, {name}"), fresh::<F>(library), line, piece);
    }
    let mut out = [0; MAX_OUTPUT];
    let times = medians(3, |task| match versions.get(task) {
        Some(library) => by_version::<F>(library, line, piece, &mut out),
        None => readers::by_hand::<F>(line, piece, &mut out),
    });
    [0, 1, 2].map(|task| line.len() as f64 / times[task])
}

fn fresh<F: Rules>(library: &Library) -> Reader<'_> {
    library.reader(F::FORMAT.number())
}

/// One function for both versions, so that they differ only in what is loaded.
#[inline(never)]
fn by_version<F: Rules>(library: &Library, line: &[u8], piece: usize, out: &mut [u8; MAX_OUTPUT]) {
    let mut reader = fresh::<F>(library);
    readers::each(line, piece, out, |piece, out| reader.piece(piece, out));
}

/// Stops the program unless a version and the reader by hand answer, copy and count the same at each piece and at the
/// close. Where no version stops it, the versions do the same.
fn compare<F: Rules>(name: &str, mut loaded: Reader, line: &[u8], piece: usize) {
    let mut written = plain::Reader::<F>::fresh();
    let (mut out, mut other) = ([0; MAX_OUTPUT], [0; MAX_OUTPUT]);
    for (i, bytes) in line.chunks(piece).map(Some).chain([None]).enumerate() {
        let answers = match bytes {
            Some(bytes) => (loaded.piece(bytes, &mut out), written.piece(bytes, &mut other)),
            None => (loaded.close(&mut out), written.close(&mut other)),
        };
        let same = answers.0 == answers.1
            && answers.1.is_ok_and(|copied| out[..copied] == other[..copied])
            && loaded.counts() == written.counts();
        let format = F::FORMAT;
        assert!(same, "{format:?} {name}, call {i} with pieces of {piece}: the readers differ: {answers:?}");
    }
}

/// Measures calls of one field function on good frames, after all answers were compared.
fn measure_fields((name, function, format, maker): Fields, versions: &Versions) -> Change {
    let frames = messages::good(format, maker);
    for frame in &frames {
        let [before, now] = versions.each_ref().map(|library| library.read(function, 0, frame));
        assert_eq!(before, now, "{name}: the versions differ on {frame:X?}");
        assert_eq!(now.number, 0, "{name}: a good frame is refused: {frame:X?}");
    }
    let times = medians(2, |task| call_all(&versions[task], function, &frames));
    report::version_fields_row(name, [0, 1].map(|task| times[task] / (PASSES * FRAMES) as f64))
}

/// The answer is lent to `black_box`, since a copy of it would take time.
#[inline(never)]
fn call_all(library: &Library, function: u32, frames: &[Vec<u8>]) {
    for frame in (0..PASSES).flat_map(|_| frames) {
        black_box(&library.read(function, 0, black_box(frame)));
    }
}
