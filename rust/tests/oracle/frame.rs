//! Frames put together from content, with their checksums.

use super::checksum::{crc32, fletcher, xor_digits};

/// An MGL frame of a body of 9 to 264 bytes.
pub fn mgl(header: [u8; 4], body: &[u8]) -> Vec<u8> {
    let l = (body.len() - 8) as u8;
    let content = [&header, body].concat();
    let checksum = crc32(&content).to_le_bytes();
    [&[0x05, 0x02, l, 255 - l], &content[..], &checksum].concat()
}

/// An OnFlight frame of a payload of 152 bytes.
pub fn onflight(payload: &[u8]) -> Vec<u8> {
    let front = [&[0x42, 0x46, 0x01, 0x98], payload].concat();
    let checksum = fletcher(&front);
    [&front[..], &checksum].concat()
}

/// A sentence of a body.
pub fn nmea(body: &[u8]) -> Vec<u8> {
    [b"$", body, b"*", &xor_digits(body), b"\r\n"].concat()
}
