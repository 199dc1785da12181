//! The checksums alone: the library's, hand-written ones and zlib's.

use crate::report::{self, Goal};
use crate::sums;
use crate::timing::medians;
use crate::zlib;
use std::hint::black_box;

#[link(name = "checksum_capi", kind = "static")]
extern "C" {
    fn checksum_crc32(bytes: *const u8, len: usize) -> u32;
    fn checksum_fletcher(bytes: *const u8, len: usize) -> u32;
    fn checksum_xor(bytes: *const u8, len: usize) -> u8;
}

/// A checksum, and who wrote it.
type Column = (&'static str, Box<dyn Fn(&[u8]) -> u32>);

/// So many bytes are summed up in a round.
const WORK: usize = 4_000_000;

/// Measures all three.
pub fn measure() {
    table("CRC-32", &[64, 100, 156, 268, 276, 4096], &crc32(), |len| if len <= 276 { Some(1.0) } else { None });
    table("Fletcher", &[76, 156, 4096], &fletcher(), |_| None);
    table("xor", &[76, 156, 4096], &xor(), |_| None);
}

/// The one that a goal is about stands first behind the library's.
fn crc32() -> Vec<Column> {
    let mut columns: Vec<Column> = vec![
        // SAFETY: the slice is initialised and only read.
        ("library", Box::new(|bytes| unsafe { checksum_crc32(bytes.as_ptr(), bytes.len()) })),
        ("slicing by 8", Box::new(sums::crc32_by_8)),
        ("one table", Box::new(sums::crc32_one_table)),
    ];
    match zlib::crc32() {
        Some(crc32) => columns.push(("zlib", Box::new(crc32))),
        None => println!("zlib is not installed"),
    }
    columns
}

fn fletcher() -> Vec<Column> {
    let number = |sums: [u8; 2]| u32::from(u16::from_le_bytes(sums));
    vec![
        // SAFETY: the slice is initialised and only read.
        ("library", Box::new(|bytes| unsafe { checksum_fletcher(bytes.as_ptr(), bytes.len()) })),
        ("each byte", Box::new(move |bytes| number(sums::fletcher_each(bytes)))),
        ("64 at a time", Box::new(move |bytes| number(sums::fletcher_stretches(bytes)))),
    ]
}

fn xor() -> Vec<Column> {
    vec![
        // SAFETY: the slice is initialised and only read.
        ("library", Box::new(|bytes| unsafe { checksum_xor(bytes.as_ptr(), bytes.len()) }.into())),
        ("fold", Box::new(|bytes| sums::xor(bytes).into())),
    ]
}

fn table(name: &str, lengths: &[usize], columns: &[Column], goal: impl Fn(usize) -> Goal) {
    report::checksums_head(name, columns.iter().map(|(name, _)| *name));
    for &len in lengths {
        let bytes: Vec<u8> = (0..len).map(|i| (i * i / 7) as u8).collect();
        for (other, sum) in columns {
            assert_eq!(sum(&bytes), columns[0].1(&bytes), "{name} of {len} bytes: the library and {other} differ");
        }
        let times = medians(columns.len(), |i| repeat(&*columns[i].1, &bytes));
        let done = (WORK / len * len) as f64;
        report::checksums_row(name, len, times.iter().map(|time| done / time), goal(len));
    }
}

fn repeat(sum: &dyn Fn(&[u8]) -> u32, bytes: &[u8]) {
    for _ in 0..WORK / bytes.len() {
        black_box(sum(black_box(bytes)));
    }
}
