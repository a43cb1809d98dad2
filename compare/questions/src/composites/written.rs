//! How the three byte stamps are written, for making questions.

use crate::calendar::{midnight, WINDOW_FIRST, WINDOW_LAST};
use std::ops::RangeInclusive;

#[derive(Clone, Copy, PartialEq, Eq, Hash)]
pub enum Written {
    Oracle,
    Cp56,
    Udf,
}

/// Year, month, day, hour, minute and second.
pub type Civil = [i64; 6];

impl Written {
    pub const ALL: [Written; 3] = [Written::Oracle, Written::Cp56, Written::Udf];

    /// The first of a question on it.
    pub fn word(self) -> &'static str {
        match self {
            Written::Oracle => "oracle",
            Written::Cp56 => "cp56",
            Written::Udf => "udf",
        }
    }

    pub fn length(self) -> usize {
        match self {
            Written::Oracle | Written::Cp56 => 7,
            Written::Udf => 12,
        }
    }

    /// The seconds that it can say, those that a zone leads to apart.
    pub fn seconds(self) -> RangeInclusive<i64> {
        match self {
            Written::Cp56 => midnight(2000, 1, 1)..=midnight(2128, 1, 1) - 1,
            _ => WINDOW_FIRST..=WINDOW_LAST,
        }
    }

    /// The stamp of a civil time. What is no civil field is 0. A field is cut to its bytes, so that it need not be good.
    pub fn bytes(self, civil: &Civil) -> Vec<u8> {
        let [year, month, day, hour, minute, second] = *civil;
        let bytes = match self {
            // The two halves of a year before 0 are both negative or 0, as Oracle writes them.
            Written::Oracle => vec![
                year / 100 + 100,
                year % 100 + 100,
                month,
                day,
                hour + 1,
                minute + 1,
                second + 1,
            ],
            Written::Cp56 => vec![
                second * 1000,
                (second * 1000) >> 8,
                minute,
                hour,
                day,
                month,
                year - 2000,
            ],
            Written::Udf => vec![
                0,
                0,
                year,
                year >> 8,
                month,
                day,
                hour,
                minute,
                second,
                0,
                0,
                0,
            ],
        };
        bytes.into_iter().map(|byte| byte as u8).collect()
    }
}
