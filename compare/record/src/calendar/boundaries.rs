//! The calendar's boundaries, each asked at its last good value and one step past it.

use super::Question;
use questions::calendar::{midnight, Fields, WINDOW_FIRST, WINDOW_LAST};

/// Years on both sides of the leap rule's cases, of year 0 and of the Gregorian reform, and the two end years.
const YEARS: [i16; 14] = [
    0, -1, -4, -100, -400, 4, 1582, 1900, 1970, 2000, 2100, 2400, -9999, 9999,
];

const COMMON_YEAR: i64 = 2023;
const LEAP_YEAR: i64 = 2024;

/// Outside the range of month, day, hour, minute and second alike. Most are edges of a machine number, or come back
/// as 1 when they are cut to 8, 16 or 32 bits; the last is the largest number that a line can hold.
const NEVER_GOOD: [u64; 11] = [
    60,
    127,
    128,
    255,
    256,
    257,
    65_535,
    65_537,
    4_294_967_295,
    4_294_967_297,
    i64::MAX as u64,
];

pub fn questions() -> Vec<Question> {
    [
        window_ends(),
        seconds_around_zero(),
        machine_ends(),
        year_edges(),
        outer_years(),
        days_of_months(),
        field_ends(),
    ]
    .into_iter()
    .flatten()
    .collect()
}

fn fields(year: i64, month: u64, day: u64, hour: u64, minute: u64, second: u64) -> Question {
    Question::Fields(Fields {
        year,
        month,
        day,
        hour,
        minute,
        second,
    })
}

fn window_ends() -> Vec<Question> {
    vec![
        Question::Seconds(WINDOW_FIRST - 1),
        Question::Seconds(WINDOW_FIRST),
        Question::Seconds(WINDOW_FIRST + 1),
        Question::Seconds(WINDOW_LAST - 1),
        Question::Seconds(WINDOW_LAST),
        Question::Seconds(WINDOW_LAST + 1),
        fields(-9999, 1, 2, 1, 59, 58),
        fields(-9999, 1, 2, 1, 59, 59),
        fields(-9999, 1, 2, 2, 0, 0),
        fields(9999, 12, 30, 21, 59, 59),
        fields(9999, 12, 30, 22, 0, 0),
        fields(9999, 12, 30, 22, 0, 1),
    ]
}

fn seconds_around_zero() -> Vec<Question> {
    let mut all = vec![
        fields(1969, 12, 31, 23, 59, 59),
        fields(1970, 1, 1, 0, 0, 0),
        Question::Seconds(0),
    ];
    for size in [1, 59, 60, 61, 3599, 3600, 3601, 86_399, 86_400, 86_401] {
        all.push(Question::Seconds(-size));
        all.push(Question::Seconds(size));
    }
    all
}

/// The ends of 64 bits, of 32 bits, and of the seconds whose nanoseconds fit 64 bits.
fn machine_ends() -> Vec<Question> {
    let mut ends = vec![i64::MIN, i64::MIN + 1, i64::MAX - 1, i64::MAX];
    for last in [
        i64::from(i32::MAX),
        i64::from(u32::MAX),
        i64::MAX / 1_000_000_000,
    ] {
        ends.extend([-last - 2, -last - 1, -last, last, last + 1]);
    }
    ends.into_iter().map(Question::Seconds).collect()
}

fn year_edges() -> Vec<Question> {
    YEARS.iter().flat_map(|&year| edges_of(year)).collect()
}

fn edges_of(year: i16) -> Vec<Question> {
    let start = midnight(year, 1, 1);
    let march = midnight(year, 3, 1);
    let end = midnight(year, 12, 31) + 86_400;
    let seconds = [start - 1, start, march - 1, march, end - 1, end];
    let year = i64::from(year);
    let days = [(1, 1), (2, 28), (2, 29), (2, 30), (3, 1), (12, 31)];
    let mut all: Vec<Question> = days
        .iter()
        .map(|&(month, day)| fields(year, month, day, 0, 0, 0))
        .collect();
    all.push(fields(year, 2, 28, 23, 59, 59));
    all.push(fields(year, 12, 31, 23, 59, 59));
    all.extend(seconds.map(Question::Seconds));
    all
}

/// Years past the end years, among them those that come back as 1970 when they are cut to 16 or 32 bits.
fn outer_years() -> Vec<Question> {
    let years = [
        -10_000,
        10_000,
        32_767,
        32_768,
        -32_768,
        -32_769,
        1970 + (1 << 16),
        1970 - (1 << 16),
        1970 + (1 << 32),
        1970 - (1 << 32),
        i64::MIN,
        i64::MAX,
    ];
    years
        .iter()
        .flat_map(|&year| {
            [
                fields(year, 1, 1, 0, 0, 0),
                fields(year, 12, 31, 23, 59, 59),
            ]
        })
        .collect()
}

fn days_of_months() -> Vec<Question> {
    let mut all = Vec::new();
    for year in [COMMON_YEAR, LEAP_YEAR] {
        for month in 1..=12 {
            for day in [0, 1, 28, 29, 30, 31, 32] {
                all.push(fields(year, month, day, 12, 30, 30));
            }
        }
    }
    all
}

/// Each field but the year, alone, at the ends of its range and outside it.
fn field_ends() -> Vec<Question> {
    let mut all = Vec::new();
    for value in [0, 1, 12, 13].into_iter().chain(NEVER_GOOD) {
        all.push(fields(LEAP_YEAR, value, 15, 12, 30, 30));
    }
    for value in [0, 1, 31, 32].into_iter().chain(NEVER_GOOD) {
        all.push(fields(LEAP_YEAR, 1, value, 12, 30, 30));
    }
    for value in [0, 23, 24].into_iter().chain(NEVER_GOOD) {
        all.push(fields(LEAP_YEAR, 6, 15, value, 30, 30));
    }
    for value in [0, 59].into_iter().chain(NEVER_GOOD) {
        all.push(fields(LEAP_YEAR, 6, 15, 12, value, 30));
        all.push(fields(LEAP_YEAR, 6, 15, 12, 30, value));
    }
    all
}
