//! CRC-32 of the machine's zlib, where it has one.

use crate::shared::Shared;
use std::ffi::{c_uint, c_ulong, c_void};
use std::mem;

type Crc32 = unsafe extern "C" fn(c_ulong, *const u8, c_uint) -> c_ulong;

/// The function, if the library can be loaded.
pub fn crc32() -> Option<impl Fn(&[u8]) -> u32> {
    let address = Shared::load(c"libz.so.1")?.address(c"crc32");
    // SAFETY: an address that is not null is that of crc32, which zlib.h declares so.
    let crc32 = unsafe { mem::transmute::<*mut c_void, Option<Crc32>>(address) }?;
    // SAFETY: the slice is initialised and only read.
    Some(move |bytes: &[u8]| unsafe { crc32(0, bytes.as_ptr(), bytes.len() as c_uint) as u32 })
}
