//! The tables of contents of bench files.

use super::answer::{require, Answer, Judged};

/// An entry, from the first bytes of a file and its length.
pub fn entry(first: &[u8], file_len: u64, item: u32) -> Answer {
    judge(first, file_len, item).into()
}

fn judge(first: &[u8], file_len: u64, item: u32) -> Judged {
    let (n, rest) = first.split_first().ok_or(10u32)?;
    require((1..=16).contains(n), 10)?;
    let entries: Vec<&[u8]> = rest.chunks_exact(6).take(usize::from(*n)).collect();
    require(entries.len() == usize::from(*n), 10)?;
    require(entries.iter().all(|entry| (1..=3).contains(&entry[0])), 10)?;
    let length = |entry: &[u8]| i64::from(u32::from_le_bytes([entry[2], entry[3], entry[4], entry[5]]));
    let toc = 1 + 6 * i64::from(*n);
    let bodies: i64 = entries.iter().map(|entry| length(entry)).sum();
    require(u64::try_from(toc + bodies) == Ok(file_len), 10)?;
    let entry = entries.get(item as usize).ok_or(9u32)?;
    let before: i64 = entries[..item as usize].iter().map(|entry| length(entry)).sum();
    Ok(vec![i64::from(*n), entry[0].into(), entry[1].into(), length(entry), toc + before])
}
