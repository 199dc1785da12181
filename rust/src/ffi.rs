//! The library's functions and numbers, as `include/capture.h` has them. Nothing checks these declarations against
//! the library but the tests: a wrong one is undefined behaviour, and not an error.

/// How many values an answer holds.
pub const VALUES: usize = 21;

/// A number, and the values of a field function.
#[repr(C)]
#[derive(Clone, Copy, Debug, PartialEq, Eq)]
pub struct Values {
    pub number: u32,
    pub values: [i64; VALUES],
}

/// A number, and a float.
#[repr(C)]
#[derive(Clone, Copy, Debug)]
pub struct Ratio {
    pub number: u32,
    pub value: f64,
}

/// A number, and how many bytes were written.
#[repr(C)]
#[derive(Clone, Copy, Debug, PartialEq, Eq)]
pub struct Written {
    pub number: u32,
    pub length: usize,
}

/// The field functions of `capture_read`, by their numbers.
pub mod function {
    pub const MGL_BODY: u32 = 100;
    pub const MGL_HEADER: u32 = 101;
    pub const MGL_GPS: u32 = 102;
    pub const MGL_FUEL_COUNT: u32 = 103;
    pub const MGL_FUEL_TANK: u32 = 104;
    pub const MGL_CLOCK: u32 = 105;
    pub const ONFLIGHT_BODY: u32 = 200;
    pub const ONFLIGHT_STATUS: u32 = 201;
    pub const ONFLIGHT_SET_BITS: u32 = 202;
    pub const ONFLIGHT_BOOT_TIME: u32 = 203;
    pub const ONFLIGHT_CLOCK: u32 = 204;
    pub const ONFLIGHT_VOLTAGES: u32 = 205;
    pub const ONFLIGHT_ACCELERATIONS: u32 = 206;
    pub const ONFLIGHT_GYROS: u32 = 207;
    pub const ONFLIGHT_PRESSURE: u32 = 208;
    pub const ONFLIGHT_FIX: u32 = 209;
    pub const ONFLIGHT_GNSS_POSITION: u32 = 210;
    pub const ONFLIGHT_INS_POSITION: u32 = 211;
    pub const ONFLIGHT_GNSS_ALTITUDE: u32 = 212;
    pub const ONFLIGHT_INS_ALTITUDE: u32 = 213;
    pub const NMEA_BODY: u32 = 300;
    pub const RMC_CLOCK: u32 = 301;
    pub const RMC_POSITION: u32 = 302;
    pub const RMC_STATUS: u32 = 303;
    pub const PLARS_SETTING: u32 = 304;
}

/// The field functions of `capture_ratio`, by their numbers.
pub mod ratio {
    pub const ONFLIGHT_INPUT_VOLTAGE: u32 = 214;
    pub const ONFLIGHT_LOAD_FACTOR: u32 = 215;
}

extern "C" {
    pub fn capture_fresh(format: u32, reader: *mut u8, reader_len: usize) -> u32;

    pub fn capture_piece(
        reader: *mut u8,
        reader_len: usize,
        piece: *const u8,
        piece_len: usize,
        out: *mut u8,
        out_len: usize,
    ) -> u32;

    pub fn capture_close(reader: *mut u8, reader_len: usize, out: *mut u8, out_len: usize) -> u32;

    pub fn capture_frame_len(format: u32, bytes: *const u8, bytes_len: usize) -> usize;

    pub fn capture_read(function: u32, item: u32, frame: *const u8, frame_len: usize) -> Values;

    pub fn capture_ratio(function: u32, frame: *const u8, frame_len: usize) -> Ratio;

    pub fn capture_elapsed(from: *const u8, from_len: usize, to: *const u8, to_len: usize) -> Values;

    pub fn capture_gyro(number: i16) -> i32;

    pub fn capture_write_gyro(rate: i32) -> Values;

    pub fn capture_write(
        format: u32,
        header: u32,
        body: *const u8,
        body_len: usize,
        out: *mut u8,
        out_len: usize,
    ) -> Written;

    pub fn capture_write_setting(source: u8, parameter: u8, value: u32, out: *mut u8, out_len: usize) -> Written;

    pub fn capture_entry(first: *const u8, first_len: usize, file_len: u64, item: u32) -> Values;
}
