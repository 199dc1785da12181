//! The three checksums.

/// CRC-32 of ITU-T V.42: reflected polynomial EDB88320, start all ones, result inverted.
pub fn crc32(bytes: &[u8]) -> u32 {
    let step = |crc: u32, byte: &u8| (crc >> 8) ^ CRC_OF_BYTE[((crc ^ u32::from(*byte)) & 0xFF) as usize];
    !bytes.iter().fold(!0, step)
}

/// What eight single steps make of each byte.
static CRC_OF_BYTE: [u32; 256] = crc_of_bytes();

const fn crc_of_bytes() -> [u32; 256] {
    let mut table = [0; 256];
    let mut byte = 0;
    while byte < 256 {
        let mut crc = byte as u32;
        let mut bit = 0;
        while bit < 8 {
            crc = if crc & 1 == 1 { (crc >> 1) ^ 0xEDB8_8320 } else { crc >> 1 };
            bit += 1;
        }
        table[byte] = crc;
        byte += 1;
    }
    table
}

/// Fletcher 16: the plain sum, and the sum of the plain sums, both modulo 255.
pub fn fletcher(bytes: &[u8]) -> [u8; 2] {
    let (mut plain, mut weighted) = (0u32, 0u32);
    for byte in bytes {
        plain = (plain + u32::from(*byte)) % 255;
        weighted = (weighted + plain) % 255;
    }
    [plain as u8, weighted as u8]
}

/// Exclusive or, in two capital digits.
pub fn xor_digits(bytes: &[u8]) -> [u8; 2] {
    let xor = bytes.iter().fold(0, |sum, byte| sum ^ byte);
    let digit = |number: u8| b"0123456789ABCDEF"[usize::from(number)];
    [digit(xor >> 4), digit(xor & 15)]
}
