//! The library's functions as they are, on slices, with every number and length that a caller in C could give.

use crate::ffi;
use crate::oracle::answer::Answer;
use crate::oracle::reader::Call;
use std::ptr;

/// A pointer to bytes to be read; null, as C may have it, where there are none.
fn lend(bytes: &[u8]) -> *const u8 {
    if bytes.is_empty() {
        ptr::null()
    } else {
        bytes.as_ptr()
    }
}

/// A pointer to bytes to be written, in the same way.
fn lend_mut(bytes: &mut [u8]) -> *mut u8 {
    if bytes.is_empty() {
        ptr::null_mut()
    } else {
        bytes.as_mut_ptr()
    }
}

fn answer(values: ffi::Values) -> Answer {
    Answer { number: values.number, values: values.values }
}

pub fn fresh(format: u32, reader: &mut [u8]) -> u32 {
    // SAFETY: the slice is initialised and lent to this call alone.
    unsafe { ffi::capture_fresh(format, lend_mut(reader), reader.len()) }
}

pub fn call(reader: &mut [u8], call: Call, out: &mut [u8]) -> u32 {
    let (reader, reader_len) = (lend_mut(reader), reader.len());
    let (out, out_len) = (lend_mut(out), out.len());
    // SAFETY: the slices are initialised, and no two of them overlap.
    match call {
        Call::Piece(piece) => unsafe { ffi::capture_piece(reader, reader_len, lend(piece), piece.len(), out, out_len) },
        Call::Close => unsafe { ffi::capture_close(reader, reader_len, out, out_len) },
    }
}

pub fn frame_len(format: u32, bytes: &[u8]) -> usize {
    // SAFETY: the slice is initialised and only read.
    unsafe { ffi::capture_frame_len(format, lend(bytes), bytes.len()) }
}

pub fn read(function: u32, item: u32, frame: &[u8]) -> Answer {
    // SAFETY: the slice is initialised and only read.
    answer(unsafe { ffi::capture_read(function, item, lend(frame), frame.len()) })
}

/// The number, and the bits of the float.
pub fn ratio(function: u32, frame: &[u8]) -> (u32, u64) {
    // SAFETY: the slice is initialised and only read.
    let ratio = unsafe { ffi::capture_ratio(function, lend(frame), frame.len()) };
    (ratio.number, ratio.value.to_bits())
}

pub fn elapsed(from: &[u8], to: &[u8]) -> Answer {
    // SAFETY: the slices are initialised and only read.
    answer(unsafe { ffi::capture_elapsed(lend(from), from.len(), lend(to), to.len()) })
}

pub fn gyro(number: i16) -> i32 {
    // SAFETY: the call takes and gives a number.
    unsafe { ffi::capture_gyro(number) }
}

pub fn write_gyro(rate: i32) -> Answer {
    // SAFETY: the call takes a number and gives numbers.
    answer(unsafe { ffi::capture_write_gyro(rate) })
}

pub fn write(format: u32, header: u32, body: &[u8], out: &mut [u8]) -> (u32, usize) {
    // SAFETY: the slices are initialised and do not overlap.
    let written = unsafe { ffi::capture_write(format, header, lend(body), body.len(), lend_mut(out), out.len()) };
    (written.number, written.length)
}

pub fn write_setting(source: u8, parameter: u8, value: u32, out: &mut [u8]) -> (u32, usize) {
    // SAFETY: the output is initialised and lent to this call alone.
    let written = unsafe { ffi::capture_write_setting(source, parameter, value, lend_mut(out), out.len()) };
    (written.number, written.length)
}

pub fn entry(first: &[u8], file_len: u64, item: u32) -> Answer {
    // SAFETY: the slice is initialised and only read.
    answer(unsafe { ffi::capture_entry(lend(first), first.len(), file_len, item) })
}
