//! How fast the library is beside hand-written Rust, beside plain copying, and as the sheet program beside `cat`.
//!
//! `tests/speed` builds what it needs and runs it. Arguments choose parts of `captures`, `checksums`, `sheet` and
//! `fields`; without one all of these are measured. `versions` is measured only where it is named, since it needs two
//! versions of the library as shared objects, whose paths `BLOSSOMAXLE_BEFORE` and `BLOSSOMAXLE_NOW` have.
//! `BLOSSOMAXLE_SPEED_MB` is the size of a capture in millions of bytes, 16 without it; the sheet program's file is 63
//! times as long.

mod captures;
mod checksums;
mod field_functions;
mod fields;
mod interface;
mod loaded;
mod messages;
mod plain;
mod readers;
mod report;
mod rules;
mod shared;
mod sheet;
mod sums;
mod timing;
mod versions;
mod zlib;

use std::env;
use std::process::exit;

const PARTS: [&str; 5] = ["captures", "checksums", "sheet", "fields", "versions"];

fn main() {
    // cargo gives options of its own.
    let words: Vec<String> = env::args().skip(1).filter(|word| !word.starts_with("--")).collect();
    if let Some(word) = words.iter().find(|word| !PARTS.contains(&word.as_str())) {
        stop(&format!("there is no part `{word}`: name some of {}", PARTS.join(", ")));
    }
    let named = |part: &str| words.iter().any(|word| word == part);
    let chosen = |part: &str| words.is_empty() || named(part);
    let size = size();
    let versions = named("versions").then(|| versions::load().unwrap_or_else(|why| stop(&why)));
    report::head(size);
    if chosen("captures") {
        readers::measure(size);
    }
    if chosen("checksums") {
        checksums::measure();
    }
    // Before the field functions: memory that this process holds counts in the peak of the sheet program.
    if chosen("sheet") {
        sheet::measure(size);
    }
    if chosen("fields") {
        field_functions::measure();
    }
    if let Some(versions) = versions {
        versions::measure(&versions, size);
    }
}

/// The bytes of a capture.
fn size() -> usize {
    let Ok(text) = env::var("BLOSSOMAXLE_SPEED_MB") else { return 16_000_000 };
    match text.parse() {
        Ok(megabytes @ 1..=100) => megabytes * 1_000_000,
        _ => stop("BLOSSOMAXLE_SPEED_MB is not a number from 1 to 100"),
    }
}

fn stop(message: &str) -> ! {
    eprintln!("speed: {message}");
    exit(2);
}
