//! Writes a damaged capture to standard output: `cargo run --example damage FORMAT SEED BYTES > FILE`.
//!
//! FORMAT is 1, 2 or 3 for a capture of at least so many bytes, or `bench` for a bench file of one capture of each. The
//! same words give the same bytes.

#[allow(dead_code)]
#[path = "../tests/generate/mod.rs"]
mod generate;
#[allow(dead_code)]
#[path = "../tests/oracle/mod.rs"]
mod oracle;

use generate::prng::Prng;
use std::io::{stdout, Write};
use std::{env, error::Error};

fn main() -> Result<(), Box<dyn Error>> {
    let words: Vec<String> = env::args().skip(1).collect();
    let [format, seed, length] = &words[..] else { return Err("usage: damage FORMAT SEED BYTES".into()) };
    let (mut rng, length) = (Prng::new(seed.parse()?), length.parse()?);
    let bytes = match format.as_str() {
        "1" | "2" | "3" => generate::capture(&mut rng, format.parse()?, length),
        "bench" => bench_file(&mut rng, length),
        _ => return Err("FORMAT is 1, 2, 3 or bench".into()),
    };
    Ok(stdout().write_all(&bytes)?)
}

/// The table of contents, and then one capture of each format; the ports are numbered like the formats.
fn bench_file(rng: &mut Prng, length: usize) -> Vec<u8> {
    let captures = oracle::FORMATS.map(|format| generate::capture(rng, format, length));
    let mut bytes = vec![captures.len() as u8];
    for (format, capture) in (1..).zip(&captures) {
        bytes.extend([format, format]);
        bytes.extend((capture.len() as u32).to_le_bytes());
    }
    bytes.extend(captures.concat());
    bytes
}
