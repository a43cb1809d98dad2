//! jiff's calendar, asked through the call that the Rust's `civil_fields` makes: for making questions, and for the
//! recorder's list of the calendar.

use crate::counts::count;
use jiff::civil::DateTime;
use jiff::tz::Offset;
use jiff::Timestamp;
use std::fmt;

/// The ends of the window that document 01 gives, for making questions; the answers to the calendar's are jiff's own.
pub const WINDOW_FIRST: i64 = -377_705_023_201;
pub const WINDOW_LAST: i64 = 253_402_207_200;

/// Civil fields as this project's calendar takes them: wider than jiff's.
#[derive(Clone, Copy)]
pub struct Fields {
    pub year: i64,
    pub month: u64,
    pub day: u64,
    pub hour: u64,
    pub minute: u64,
    pub second: u64,
}

impl Fields {
    /// From the year down.
    pub fn numbers(&self) -> [i64; 6] {
        [
            self.year,
            self.month as i64,
            self.day as i64,
            self.hour as i64,
            self.minute as i64,
            self.second as i64,
        ]
    }
}

impl fmt::Display for Fields {
    fn fmt(&self, out: &mut fmt::Formatter) -> fmt::Result {
        write!(out, "{} {} {} ", self.year, self.month, self.day)?;
        write!(out, "{} {} {}", self.hour, self.minute, self.second)
    }
}

/// Whether jiff refuses what its text says it refuses; 0.1.28 does, 0.2.37 does not.
pub fn jiff_tests_its_window() -> bool {
    let before = Timestamp::MIN.as_nanosecond() - 1;
    let after = Timestamp::MAX.as_nanosecond() + 1;
    Timestamp::from_nanosecond(before).is_err() && Timestamp::from_nanosecond(after).is_err()
}

/// The Rust's `civil_fields`.
pub fn fields_of(seconds: i64) -> Option<Fields> {
    let timestamp = Timestamp::from_nanosecond(count(seconds, 0).0).ok()?;
    let date_time = Offset::UTC.to_datetime(timestamp);
    Some(Fields {
        year: i64::from(date_time.year()),
        month: date_time.month() as u64,
        day: date_time.day() as u64,
        hour: date_time.hour() as u64,
        minute: date_time.minute() as u64,
        second: date_time.second() as u64,
    })
}

/// The seconds since 1970 of a day's midnight, for making questions: any year from -9999 to 9999, in the window or not.
pub fn midnight(year: i16, month: i8, day: i8) -> i64 {
    let start = DateTime::constant(year, month, day, 0, 0, 0, 0);
    start
        .duration_since(DateTime::constant(1970, 1, 1, 0, 0, 0, 0))
        .as_secs()
}
