//! The calendar's random questions, from the seeded generator.

use super::Question;
use jiff::civil::Date;
use questions::calendar::{midnight, Fields, WINDOW_FIRST, WINDOW_LAST};
use questions::splitmix::SplitMix;

pub const SEED: u64 = 15_821_015;

/// Of the seconds and of the fields each.
const QUESTIONS: usize = 12_000;

/// Of each six: four uniform in the window, one of a random bit length, one beside an edge of the calendar.
pub fn seconds(numbers: &mut SplitMix) -> Vec<Question> {
    (0..QUESTIONS)
        .map(|index| match index % 6 {
            4 => numbers.of_any_length(),
            5 => seconds_beside_an_edge(numbers),
            _ => numbers.between(WINDOW_FIRST, WINDOW_LAST),
        })
        .map(Question::Seconds)
        .collect()
}

/// Good and damaged by turns.
pub fn fields(numbers: &mut SplitMix) -> Vec<Question> {
    (0..QUESTIONS)
        .map(|index| match index % 2 {
            0 => good_fields(numbers),
            _ => damaged_fields(numbers),
        })
        .map(Question::Fields)
        .collect()
}

/// At most two seconds away from the start of a year, a month or a day.
fn seconds_beside_an_edge(numbers: &mut SplitMix) -> i64 {
    let date = good_date(numbers);
    let edge = match numbers.below(3) {
        0 => midnight(date.year(), 1, 1),
        1 => midnight(date.year(), date.month(), 1),
        _ => midnight(date.year(), date.month(), date.day()),
    };
    edge + numbers.between(-2, 2)
}

fn good_date(numbers: &mut SplitMix) -> Date {
    let year = numbers.between(-9999, 9999) as i16;
    let month = numbers.between(1, 12) as i8;
    let length = Date::constant(year, month, 1).days_in_month();
    Date::constant(year, month, numbers.between(1, i64::from(length)) as i8)
}

fn good_fields(numbers: &mut SplitMix) -> Fields {
    let date = good_date(numbers);
    Fields {
        year: i64::from(date.year()),
        month: date.month() as u64,
        day: date.day() as u64,
        hour: numbers.below(24),
        minute: numbers.below(60),
        second: numbers.below(60),
    }
}

/// Good fields with one or two of the six spoilt.
fn damaged_fields(numbers: &mut SplitMix) -> Fields {
    let good = good_fields(numbers);
    let mut fields = good;
    let first = numbers.below(6);
    spoil(&mut fields, &good, first, numbers);
    if numbers.coin() {
        let second = (first + 1 + numbers.below(5)) % 6;
        spoil(&mut fields, &good, second, numbers);
    }
    fields
}

/// Spoils one field of six, numbered from the year on.
fn spoil(fields: &mut Fields, good: &Fields, which: u64, numbers: &mut SplitMix) {
    match which {
        0 => fields.year = bad_year(numbers, good.year),
        1 => {
            let beside = [0, 13][numbers.below(2) as usize];
            fields.month = bad_value(numbers, beside, good.month);
        }
        2 => {
            let date = Date::constant(good.year as i16, good.month as i8, good.day as i8);
            let beside = [0, date.days_in_month() as u64 + 1][numbers.below(2) as usize];
            fields.day = bad_value(numbers, beside, good.day);
        }
        3 => fields.hour = bad_value(numbers, 24, good.hour),
        4 => fields.minute = bad_value(numbers, 60, good.minute),
        _ => fields.second = bad_value(numbers, 60, good.second),
    }
}

/// Just outside the range, or far outside: of a random bit length, or the good value again in its lowest 16 bits.
fn bad_year(numbers: &mut SplitMix, good: i64) -> i64 {
    match numbers.below(4) {
        0 => 10_000,
        1 => -10_000,
        2 => {
            let length = numbers.between(15, 63) as u32;
            numbers.either_sign(length)
        }
        _ => {
            let length = numbers.between(1, 46) as u32;
            good + numbers.either_sign(length) * 65_536
        }
    }
}

/// `beside`, which is just outside the range, or far outside: of a random bit length, or the good value again in its
/// lowest 8 bits.
fn bad_value(numbers: &mut SplitMix, beside: u64, good: u64) -> u64 {
    match numbers.below(4) {
        0 | 1 => beside,
        2 => {
            let length = numbers.between(7, 63) as u32;
            numbers.of_bit_length(length)
        }
        _ => {
            let length = numbers.between(1, 55) as u32;
            good + numbers.of_bit_length(length) * 256
        }
    }
}
