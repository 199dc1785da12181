//! The values of an answer, taken one after the other, each as the type it has.

use crate::ffi;
use crate::Refusal;

/// The values of an answer, and how many of them are taken.
pub struct Row {
    values: [i64; ffi::VALUES],
    taken: usize,
}

impl Row {
    /// The values, or the refusal.
    #[inline]
    pub fn judge(answer: ffi::Values) -> Result<Row, Refusal> {
        Refusal::judge(answer.number).map(|()| Row { values: answer.values, taken: 0 })
    }

    /// The next value. The library promises that it fits; where it does not, the library is not the one that this
    /// crate was written for, and nothing it says can be used.
    #[inline]
    pub fn next<T: TryFrom<i64>>(&mut self) -> T {
        let value = *self.values.get(self.taken).expect("no field function has more values than an answer holds");
        self.taken += 1;
        T::try_from(value).unwrap_or_else(|_| misfit(value))
    }

    /// The next value as a mark: 0 for no, any other number for yes.
    #[inline]
    pub fn next_mark(&mut self) -> bool {
        self.next::<i64>() != 0
    }
}

/// Stops the program: the library answered what it never answers.
pub fn misfit(value: i64) -> ! {
    panic!("libcapture.a answered {value} in a place where it cannot stand: the archive does not belong to this crate")
}
