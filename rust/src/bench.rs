//! Bench files: several captures behind a table of contents.
//!
//! The table is judged from the first bytes of the file and its length; the captures themselves are not looked at.

use crate::call;
use crate::row::{misfit, Row};
use crate::{Format, Refusal};

/// The longest table of contents: so many first bytes of a file are enough.
pub const LONGEST_TOC: usize = 97;

/// A capture in a bench file.
#[derive(Clone, Copy, Debug, PartialEq, Eq, Hash)]
pub struct Entry {
    /// The format of its line.
    pub format: Format,
    /// The port that it came from.
    pub port: u8,
    /// How many bytes it has.
    pub length: u32,
    /// Where it starts in the file.
    pub start: u64,
}

/// How many entries a file has, 1 to 16, or [`Refusal::BrokenToc`].
///
/// ```
/// use blossomaxle::bench;
///
/// let file = [1, 3, 2, 0, 0, 0, 0];
/// assert_eq!(bench::count(&file, 7), Ok(1));
/// ```
pub fn count(first: &[u8], file_len: u64) -> Result<u32, Refusal> {
    Ok(call::entry(first, file_len, 0)?.next())
}

/// An entry of a file, numbered from 0: [`Refusal::BrokenToc`], then [`Refusal::OutOfForm`] past the last.
///
/// ```
/// use blossomaxle::{bench, Format, Refusal};
///
/// let toc = [2, 3, 7, 5, 0, 0, 0, 1, 8, 0, 1, 0, 0];
/// let entry = bench::entry(&toc, 13 + 5 + 256, 1).unwrap();
/// assert_eq!(entry, bench::Entry { format: Format::Mgl, port: 8, length: 256, start: 18 });
/// assert_eq!(bench::entry(&toc, 13 + 5 + 256, 2), Err(Refusal::OutOfForm));
/// assert_eq!(bench::entry(&toc, 13 + 5 + 255, 0), Err(Refusal::BrokenToc));
/// ```
pub fn entry(first: &[u8], file_len: u64, item: u32) -> Result<Entry, Refusal> {
    call::entry(first, file_len, item).map(Entry::from_row)
}

/// All entries of a file, in order.
///
/// ```
/// use blossomaxle::bench;
///
/// let toc = [2, 3, 7, 5, 0, 0, 0, 1, 8, 0, 1, 0, 0];
/// let starts: Vec<u64> = bench::entries(&toc, 13 + 5 + 256).unwrap().map(|entry| entry.start).collect();
/// assert_eq!(starts, [13, 18]);
/// ```
pub fn entries(first: &[u8], file_len: u64) -> Result<impl Iterator<Item = Entry> + '_, Refusal> {
    let count = count(first, file_len)?;
    // None of these is refused: the table is sound, and there are so many entries.
    Ok((0..count).map_while(move |item| entry(first, file_len, item).ok()))
}

impl Entry {
    fn from_row(mut row: Row) -> Entry {
        let _count: u32 = row.next();
        let format: u32 = row.next();
        Entry {
            format: Format::from_number(format).unwrap_or_else(|| misfit(format.into())),
            port: row.next(),
            length: row.next(),
            start: row.next(),
        }
    }
}
