//! The checksums of docs/FORMATS.md, hand-written.

/// What each byte does to a CRC-32 with 0 to 7 zero bytes behind it.
static TABLES: [[u32; 256]; 8] = tables();

const fn tables() -> [[u32; 256]; 8] {
    let mut tables = [[0; 256]; 8];
    let mut i = 0;
    while i < 8 * 256 {
        let (table, byte) = (i / 256, i % 256);
        let mut crc = if table == 0 { byte as u32 } else { tables[table - 1][byte] };
        let mut bit = 0;
        while bit < 8 {
            crc = (crc >> 1) ^ (0xEDB8_8320 * (crc & 1));
            bit += 1;
        }
        tables[table][byte] = crc;
        i += 1;
    }
    tables
}

/// CRC-32 by one table, a byte at a time.
pub fn crc32_one_table(bytes: &[u8]) -> u32 {
    !one_by_one(!0, bytes)
}

fn one_by_one(crc: u32, bytes: &[u8]) -> u32 {
    bytes.iter().fold(crc, |crc, byte| TABLES[0][usize::from(crc as u8 ^ byte)] ^ (crc >> 8))
}

/// CRC-32 by slicing: eight bytes at a time, by eight tables.
pub fn crc32_by_8(bytes: &[u8]) -> u32 {
    let mut eights = bytes.chunks_exact(8);
    let crc = eights.by_ref().fold(!0, |crc: u32, b| {
        let low = crc ^ u32::from_le_bytes([b[0], b[1], b[2], b[3]]);
        TABLES[7][(low & 0xFF) as usize]
            ^ TABLES[6][(low >> 8 & 0xFF) as usize]
            ^ TABLES[5][(low >> 16 & 0xFF) as usize]
            ^ TABLES[4][(low >> 24) as usize]
            ^ TABLES[3][usize::from(b[4])]
            ^ TABLES[2][usize::from(b[5])]
            ^ TABLES[1][usize::from(b[6])]
            ^ TABLES[0][usize::from(b[7])]
    });
    !one_by_one(crc, eights.remainder())
}

/// Fletcher's plain and weighted sum, both reduced at each byte.
pub fn fletcher_each(bytes: &[u8]) -> [u8; 2] {
    let (plain, weighted) = bytes.iter().fold((0, 0), |(plain, weighted), byte| {
        let plain = (plain + u32::from(*byte)) % 255;
        (plain, (weighted + plain) % 255)
    });
    [plain as u8, weighted as u8]
}

/// Fletcher's sums, reduced after each 64 bytes.
pub fn fletcher_stretches(bytes: &[u8]) -> [u8; 2] {
    let (plain, weighted) = bytes.chunks(64).fold((0, 0), |sums, stretch| {
        let (plain, weighted) = stretch.iter().fold(sums, |(plain, weighted), byte| {
            let plain: u32 = plain + u32::from(*byte);
            (plain, weighted + plain)
        });
        (plain % 255, weighted % 255)
    });
    [plain as u8, weighted as u8]
}

/// The exclusive or of the bytes.
pub fn xor(bytes: &[u8]) -> u8 {
    bytes.iter().fold(0, |xor, byte| xor ^ byte)
}
