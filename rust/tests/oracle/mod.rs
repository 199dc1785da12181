//! An independent implementation of the rules, to compare the library with.
//!
//! It is written from document 01 (the build description) and the papers that it names, and from nothing of the
//! library. It is plain rather than quick: whole byte strings are read again and again, and sets that the rules
//! describe are searched.

pub mod answer;
pub mod bench;
pub mod calendar;
pub mod checksum;
pub mod frame;
pub mod gyro;
pub mod machine;
pub mod mgl;
pub mod nmea;
pub mod onflight;
pub mod plars;
pub mod reader;
pub mod reading;
pub mod shape;
pub mod writer;

/// The formats' numbers.
pub const MGL: u32 = 1;
pub const ONFLIGHT: u32 = 2;
pub const NMEA: u32 = 3;

/// All of them.
pub const FORMATS: [u32; 3] = [MGL, ONFLIGHT, NMEA];
