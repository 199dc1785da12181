//! Reads a bench file and prints the counts of each of its captures: `cargo run --example bench FILE`.

use blossomaxle::{bench, Reader, LONGEST_PIECE, MAX_OUTPUT};
use std::{env, error::Error, fs};

fn main() -> Result<(), Box<dyn Error>> {
    let file = fs::read(env::args().nth(1).ok_or("usage: bench FILE")?)?;
    let mut out = [0; MAX_OUTPUT];
    for entry in bench::entries(&file, file.len() as u64)? {
        let (start, length) = (entry.start as usize, entry.length as usize);
        let mut reader = Reader::fresh(entry.format)?;
        for piece in file[start..start + length].chunks(LONGEST_PIECE) {
            reader.piece(piece, &mut out)?;
        }
        reader.close(&mut out)?;
        let counts = reader.counts();
        println!("port {}, {:?}: framed {}, skipped {}", entry.port, entry.format, counts.framed, counts.skipped);
    }
    Ok(())
}
