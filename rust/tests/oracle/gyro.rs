//! MGL gyro numbers.

use super::answer::{Answer, Judged};
use std::collections::HashMap;
use std::sync::OnceLock;

/// The rate that a number stands for, in hundredths of a degree a second.
pub fn rate(number: i16) -> i32 {
    let (size, sign) = (i32::from(number).abs(), i32::from(number).signum());
    if size <= 14_999 {
        number.into()
    } else {
        sign * (size - 13_500) * 10
    }
}

/// The number that stands for a rate: searched among all numbers, and 9 where none does.
pub fn write(wanted: i32) -> Answer {
    static NUMBERS: OnceLock<HashMap<i32, i16>> = OnceLock::new();
    let numbers = NUMBERS.get_or_init(|| (i16::MIN..=i16::MAX).map(|number| (rate(number), number)).collect());
    let judged: Judged = numbers.get(&wanted).map(|number| vec![i64::from(*number)]).ok_or(9);
    judged.into()
}
