//! Random words and instants, from the seeded generator.

use super::instant_boundaries::{NOKIA_FIRST, NOKIA_LAST, THREE_TICKS, YEAR_1900};
use super::layouts::Layout;
use crate::calendar::{fields_of, midnight, WINDOW_FIRST, WINDOW_LAST};
use crate::splitmix::SplitMix;
use std::ops::RangeInclusive;

/// By turns: a good word with something else in one field, a good word with one bit changed, a word of a random bit
/// length.
pub fn damaged_word(layout: i64, turn: usize, numbers: &mut SplitMix) -> i64 {
    match turn % 3 {
        0 => one_field_changed(layout, numbers),
        1 => good_word(layout, numbers) ^ 1 << numbers.below(64),
        _ => numbers.of_any_length(),
    }
}

/// Seconds and nanoseconds. Of each six: four whose second the encoder takes, one in the civil window, one whose seconds
/// have a random bit length.
pub fn instant(layout: i64, turn: usize, numbers: &mut SplitMix) -> (i64, i64) {
    let seconds = match turn % 6 {
        4 => numbers.between(WINDOW_FIRST, WINDOW_LAST),
        5 => numbers.of_any_length(),
        _ => good_second(layout, numbers),
    };
    (seconds, good_nanos(numbers))
}

pub fn good_word(layout: i64, numbers: &mut SplitMix) -> i64 {
    match layout {
        15 => numbers.between(0, u32::MAX.into()),
        16 => good_day(numbers) << 32 | numbers.between(0, 25_919_999),
        _ => good_civil_word(layout, numbers),
    }
}

/// A day of a random bit length, of either sign.
fn good_day(numbers: &mut SplitMix) -> i64 {
    let length = numbers.below(32) as u32;
    numbers.either_sign(length)
}

/// With something in what is no civil field, by chance.
fn good_civil_word(number: i64, numbers: &mut SplitMix) -> i64 {
    let layout = Layout::of(number);
    let word = civil_word(&layout, good_second(number, numbers));
    let extra = match number {
        14 => numbers.below(10) << 4 | numbers.below(16),
        _ => numbers.below(layout.most_extra() + 1),
    };
    if numbers.coin() {
        layout.with_extra(word, extra)
    } else {
        word
    }
}

/// A second that the encoder takes.
fn good_second(layout: i64, numbers: &mut SplitMix) -> i64 {
    match layout {
        15 => numbers.between(NOKIA_FIRST, NOKIA_LAST),
        16 => YEAR_1900 + good_day(numbers) * 86_400 + numbers.between(0, 86_398),
        _ => {
            let seconds = civil_seconds(&Layout::of(layout));
            numbers.between(*seconds.start(), *seconds.end())
        }
    }
}

/// The seconds of a layout's years, as far as the window goes.
pub fn civil_seconds(layout: &Layout) -> RangeInclusive<i64> {
    let first = midnight(*layout.years.start() as i16, 1, 1);
    let last = midnight(*layout.years.end() as i16, 12, 31) + 86_399;
    first..=last.min(WINDOW_LAST)
}

/// The word of a second of the layout's years.
pub fn civil_word(layout: &Layout, second: i64) -> i64 {
    let fields = fields_of(second).expect("jiff has the encoders' years");
    layout.word(&fields.numbers())
}

/// Of each four: none, the most, some beside a half tick of layout 16, any.
fn good_nanos(numbers: &mut SplitMix) -> i64 {
    match numbers.below(4) {
        0 => 0,
        1 => 999_999_999,
        2 => (numbers.between(0, 299) * THREE_TICKS + THREE_TICKS / 2) / 3 + numbers.between(-1, 2),
        _ => numbers.between(0, 999_999_999),
    }
}

/// Layout 15 has one field, and something beside it; layout 16 gets other ticks.
fn one_field_changed(number: i64, numbers: &mut SplitMix) -> i64 {
    let word = good_word(number, numbers);
    match number {
        15 => word | numbers.between(1, i64::from(i32::MAX)) << 32,
        16 => word >> 32 << 32 | numbers.between(0, u32::MAX.into()),
        _ => {
            let layout = Layout::of(number);
            let field = numbers.below(layout.fields() as u64) as usize;
            layout.with(word, field, numbers.below(layout.most(field) + 1))
        }
    }
}
