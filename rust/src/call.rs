//! The calls of the library, made safe: slices for pointers, and a [`Refusal`] for a number that is not 0.

use crate::ffi;
use crate::row::Row;
use crate::Refusal;

/// Writes a fresh reader to the reader's bytes.
pub fn fresh(format: u32, reader: &mut [u8]) -> Result<(), Refusal> {
    // SAFETY: the slice is initialised and lent to this call alone.
    let number = unsafe { ffi::capture_fresh(format, reader.as_mut_ptr(), reader.len()) };
    Refusal::judge(number)
}

/// Reads a piece.
pub fn piece(reader: &mut [u8], piece: &[u8], out: &mut [u8]) -> Result<(), Refusal> {
    // SAFETY: the slices are initialised; two of them are lent mutably, so that none overlaps another.
    let number = unsafe {
        ffi::capture_piece(reader.as_mut_ptr(), reader.len(), piece.as_ptr(), piece.len(), out.as_mut_ptr(), out.len())
    };
    Refusal::judge(number)
}

/// Ends the line.
pub fn close(reader: &mut [u8], out: &mut [u8]) -> Result<(), Refusal> {
    // SAFETY: both slices are initialised and lent mutably, so that they do not overlap.
    let number = unsafe { ffi::capture_close(reader.as_mut_ptr(), reader.len(), out.as_mut_ptr(), out.len()) };
    Refusal::judge(number)
}

/// The length of the frame that bytes begin with, or 0.
pub fn frame_len(format: u32, bytes: &[u8]) -> usize {
    // SAFETY: the slice is initialised and only read.
    unsafe { ffi::capture_frame_len(format, bytes.as_ptr(), bytes.len()) }
}

/// The values that a field function answers for a frame.
///
/// This and all field functions over it are `#[inline]`: a caller then takes the values where the library wrote them.
/// Otherwise each answer is written and copied once more.
#[inline]
pub fn read(function: u32, frame: &[u8]) -> Result<Row, Refusal> {
    read_item(function, 0, frame)
}

/// The values that a field function answers for an item of a frame.
#[inline]
pub fn read_item(function: u32, item: u32, frame: &[u8]) -> Result<Row, Refusal> {
    // SAFETY: the slice is initialised and only read.
    Row::judge(unsafe { ffi::capture_read(function, item, frame.as_ptr(), frame.len()) })
}

/// The part of a frame whose place a field function answers.
#[inline]
pub fn part(function: u32, frame: &[u8]) -> Result<&[u8], Refusal> {
    let mut row = read(function, frame)?;
    Ok(&frame[row.next()..row.next()])
}

/// The float that a field function answers for a frame.
#[inline]
pub fn ratio(function: u32, frame: &[u8]) -> Result<f64, Refusal> {
    // SAFETY: the slice is initialised and only read.
    let answer = unsafe { ffi::capture_ratio(function, frame.as_ptr(), frame.len()) };
    Refusal::judge(answer.number).map(|()| answer.value)
}

/// The time from one frame to another.
pub fn elapsed(from: &[u8], to: &[u8]) -> Result<Row, Refusal> {
    // SAFETY: the slices are initialised and only read.
    Row::judge(unsafe { ffi::capture_elapsed(from.as_ptr(), from.len(), to.as_ptr(), to.len()) })
}

/// The rate that a gyro number stands for.
pub fn gyro(number: i16) -> i32 {
    // SAFETY: the call takes and gives a number.
    unsafe { ffi::capture_gyro(number) }
}

/// The gyro number that stands for a rate.
pub fn write_gyro(rate: i32) -> Result<Row, Refusal> {
    // SAFETY: the call takes a number and gives numbers.
    Row::judge(unsafe { ffi::capture_write_gyro(rate) })
}

/// Writes a whole frame.
pub fn write(format: u32, header: [u8; 4], body: &[u8], out: &mut [u8]) -> Result<usize, Refusal> {
    let header = u32::from_le_bytes(header);
    // SAFETY: the slices are initialised; the output is lent mutably, so that the body does not overlap it.
    let written = unsafe { ffi::capture_write(format, header, body.as_ptr(), body.len(), out.as_mut_ptr(), out.len()) };
    Refusal::judge(written.number).map(|()| written.length)
}

/// Writes a PLARS sentence.
pub fn write_setting(source: u8, parameter: u8, value: u32, out: &mut [u8]) -> Result<usize, Refusal> {
    // SAFETY: the output is initialised and lent to this call alone.
    let written = unsafe { ffi::capture_write_setting(source, parameter, value, out.as_mut_ptr(), out.len()) };
    Refusal::judge(written.number).map(|()| written.length)
}

/// An entry of a bench file.
pub fn entry(first: &[u8], file_len: u64, item: u32) -> Result<Row, Refusal> {
    // SAFETY: the slice is initialised and only read.
    Row::judge(unsafe { ffi::capture_entry(first.as_ptr(), first.len(), file_len, item) })
}
