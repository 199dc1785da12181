//! Clock times, counted year by year and month by month.

/// What a clock says.
#[derive(Clone, Copy, Debug, PartialEq, Eq)]
pub enum Clock {
    Unset,
    /// Seconds since 1970-01-01 00:00:00.
    Good(i64),
    /// The first wrong field, by its place in the order month, day, hour, minute, second, year.
    Wrong(usize),
}

/// A time as it is read.
#[derive(Clone, Copy, Debug)]
pub struct Time {
    pub year: i64,
    /// Whether the year is one that the format has.
    pub year_right: bool,
    pub month: i64,
    pub day: i64,
    pub hour: i64,
    pub minute: i64,
    pub second: i64,
}

impl Time {
    /// The first wrong field, or the seconds.
    pub fn judge(self) -> Clock {
        let month_right = (1..=12).contains(&self.month);
        let rules = [
            month_right,
            month_right && (1..=month_length(self.year, self.month)).contains(&self.day),
            self.hour <= 23,
            self.minute <= 59,
            self.second <= 59,
            self.year_right,
        ];
        match rules.iter().position(|right| !right) {
            Some(place) => Clock::Wrong(place),
            None => Clock::Good(self.seconds()),
        }
    }

    fn seconds(self) -> i64 {
        let years: i64 = (1970..self.year).map(|year| if leap(year) { 366 } else { 365 }).sum();
        let months: i64 = (1..self.month).map(|month| month_length(self.year, month)).sum();
        let days = years + months + self.day - 1;
        ((days * 24 + self.hour) * 60 + self.minute) * 60 + self.second
    }
}

/// The Gregorian rule.
fn leap(year: i64) -> bool {
    (year % 4 == 0 && year % 100 != 0) || year % 400 == 0
}

fn month_length(year: i64, month: i64) -> i64 {
    match month {
        4 | 6 | 9 | 11 => 30,
        2 if leap(year) => 29,
        2 => 28,
        _ => 31,
    }
}
