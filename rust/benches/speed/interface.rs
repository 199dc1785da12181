//! The library's interface for field functions: what `capture_read` answers, and how the crate takes the values. The
//! crate's own modules are private. Its declarations are compiled here again from the same file; `Row` is written again,
//! as rust/src/row.rs has it.

#[allow(dead_code)]
#[path = "../../src/ffi.rs"]
mod ffi;

pub use ffi::{function, Values, VALUES};

use blossomaxle::Refusal;

/// `capture_read`: the number of a field function, an item, and the frame's bytes and length.
pub type Read = unsafe extern "C" fn(u32, u32, *const u8, usize) -> Values;

/// The values of an answer, and how many of them are taken.
pub struct Row {
    values: [i64; VALUES],
    taken: usize,
}

impl Row {
    /// The values, or the refusal.
    pub fn judge(answer: Values) -> Result<Row, Refusal> {
        Refusal::from_number(answer.number).map_or(Ok(Row { values: answer.values, taken: 0 }), Err)
    }

    /// The next value. The check is the crate's, and is there to take the time that it takes there.
    pub fn next<T: TryFrom<i64>>(&mut self) -> T {
        let value = *self.values.get(self.taken).expect("no field function has more values than an answer");
        self.taken += 1;
        T::try_from(value).unwrap_or_else(|_| misfit(value))
    }

    /// The next value as a mark: 0 for no, any other number for yes.
    pub fn next_mark(&mut self) -> bool {
        self.next::<i64>() != 0
    }
}

/// Stops the program: a field function answered what it never answers.
pub fn misfit(value: i64) -> ! {
    panic!("a field function answered {value} in a place where it cannot stand")
}
