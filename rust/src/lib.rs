//! Readers and writers for serial captures of used avionics: the MGL EFIS feed, the OnFlight log and NMEA with the LARUS
//! sentences.
//!
//! All work is done by a static library that is written in Rattle and proved: for any bytes each call ends, does
//! nothing undefined, and answers exactly what the rules say (`docs/FORMATS.md` of the repository). This crate gives it
//! types. It is for x86-64 Linux.
//!
//! A [`Reader`] takes a line in pieces and hands out its frames, which [`Frames`] takes one by one;
//! [`frame_len`] gives the length of one. [`mgl`], [`onflight`] and [`nmea`] read the fields of one frame and write
//! frames. [`bench`](mod@bench) reads the table of contents of a file with several captures. What is refused is a
//! [`Refusal`].

#![deny(missing_docs)]
#![warn(unsafe_op_in_unsafe_fn)]

mod call;
mod clock;
mod ffi;
mod format;
mod frames;
mod reader;
mod refusal;
mod row;

pub mod bench;
pub mod mgl;
pub mod nmea;
pub mod onflight;

pub use clock::{Clock, Field};
pub use format::Format;
pub use frames::{frame_len, Frames};
pub use reader::{Counts, Reader, LONGEST_PIECE, MAX_OUTPUT, READER_LEN};
pub use refusal::Refusal;

/// The repository's README, whose Rust example is run as a test.
#[cfg(doctest)]
#[doc = include_str!("../../README.md")]
struct Readme;
