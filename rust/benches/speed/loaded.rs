//! A version of the library that is loaded from a shared object, so that one program can hold two.

use crate::interface::{Read, Values};
use crate::shared::Shared;
use std::ffi::{c_void, CStr};
use std::mem;

type Fresh = unsafe extern "C" fn(u32, *mut u8, usize) -> u32;
type Piece = unsafe extern "C" fn(*mut u8, usize, *const u8, usize, *mut u8, usize) -> u32;
type Close = unsafe extern "C" fn(*mut u8, usize, *mut u8, usize) -> u32;

/// The longest reader that is tried.
const MOST_BYTES: usize = 1024;

/// The functions of a version that are measured.
pub struct Library {
    fresh: Fresh,
    piece: Piece,
    close: Close,
    read: Read,
    /// The length of the reader's bytes, which later versions may change.
    reader_len: usize,
}

impl Library {
    /// The version in a shared object, or why there is none.
    pub fn load(path: &CStr) -> Result<Library, String> {
        let shared = Shared::load(path).ok_or_else(|| format!("{path:?} cannot be loaded"))?;
        Library::of(&shared).ok_or_else(|| format!("{path:?} is no version of the library that can be measured"))
    }

    fn of(shared: &Shared) -> Option<Library> {
        let [fresh, piece, close, read] =
            [c"capture_fresh", c"capture_piece", c"capture_close", c"capture_read"].map(|name| shared.address(name));
        // SAFETY: addresses that are not null are those of the library's functions. Every version since commit 3fde0d9
        // declares them so in its capture.h; tests/speed says that no other can be measured.
        let (fresh, piece, close, read) = unsafe {
            (
                mem::transmute::<*mut c_void, Option<Fresh>>(fresh)?,
                mem::transmute::<*mut c_void, Option<Piece>>(piece)?,
                mem::transmute::<*mut c_void, Option<Close>>(close)?,
                mem::transmute::<*mut c_void, Option<Read>>(read)?,
            )
        };
        Some(Library { fresh, piece, close, read, reader_len: reader_len(fresh)? })
    }

    /// A fresh reader of a known format.
    pub fn reader(&self, format: u32) -> Reader<'_> {
        let mut bytes = Bytes([0; MOST_BYTES]);
        // SAFETY: the length is at most that of the array, which is initialised and lent to this call alone.
        let number = unsafe { (self.fresh)(format, bytes.0.as_mut_ptr(), self.reader_len) };
        assert_eq!(number, 0, "every version knows the format {format}");
        Reader { library: self, bytes }
    }

    /// What a field function answers for an item of a frame.
    pub fn read(&self, function: u32, item: u32, frame: &[u8]) -> Values {
        // SAFETY: the slice is initialised and only read.
        unsafe { (self.read)(function, item, frame.as_ptr(), frame.len()) }
    }
}

/// The length for which the version makes a reader: it refuses every other.
fn reader_len(fresh: Fresh) -> Option<usize> {
    let mut bytes = Bytes([0; MOST_BYTES]);
    // SAFETY: no length is over that of the array, which is initialised and lent to this call alone.
    (1..=MOST_BYTES).find(|len| unsafe { fresh(1, bytes.0.as_mut_ptr(), *len) } == 0)
}

/// The reader's bytes, and more that no call sees. Their alignment is that of the crate's reader.
#[repr(align(512))]
struct Bytes([u8; MOST_BYTES]);

/// A reader of a loaded version.
pub struct Reader<'a> {
    library: &'a Library,
    bytes: Bytes,
}

impl Reader<'_> {
    /// Copies the frames of a piece to the output and says how many bytes they have, or gives the refusal's number.
    pub fn piece(&mut self, piece: &[u8], out: &mut [u8]) -> Result<usize, u32> {
        let before = self.framed();
        let (reader, reader_len) = (self.bytes.0.as_mut_ptr(), self.library.reader_len);
        // SAFETY: the buffers are initialised; two of them are lent mutably, so that none overlaps another.
        let number = unsafe {
            (self.library.piece)(reader, reader_len, piece.as_ptr(), piece.len(), out.as_mut_ptr(), out.len())
        };
        match number {
            0 => Ok((self.framed() - before) as usize),
            refusal => Err(refusal),
        }
    }

    /// Ends the line, and answers as for a piece.
    pub fn close(&mut self, out: &mut [u8]) -> Result<usize, u32> {
        let before = self.framed();
        let (reader, reader_len) = (self.bytes.0.as_mut_ptr(), self.library.reader_len);
        // SAFETY: both buffers are initialised and lent mutably, so that they do not overlap.
        let number = unsafe { (self.library.close)(reader, reader_len, out.as_mut_ptr(), out.len()) };
        match number {
            0 => Ok((self.framed() - before) as usize),
            refusal => Err(refusal),
        }
    }

    /// Framed, skipped and pending.
    pub fn counts(&self) -> [u32; 3] {
        [8, 12, 16].map(|at| self.word(at))
    }

    fn framed(&self) -> u32 {
        self.word(8)
    }

    fn word(&self, at: usize) -> u32 {
        let bytes = &self.bytes.0;
        u32::from_le_bytes([bytes[at], bytes[at + 1], bytes[at + 2], bytes[at + 3]])
    }
}
