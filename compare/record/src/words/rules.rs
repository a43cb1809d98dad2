//! The numbers of refusals, which the Rust's errors do not have: document 01's table, in its order. Where the Rust accepts
//! what these rules refuse, or refuses what they accept, the recorder stops. The rules, the first that holds:
//!
//! | decoding | |
//! |---|---|
//! | 1 | the layout number is not 1 to 16; the Rust, which has no numbers, is not asked |
//! | 2 | the word is outside the range column |
//! | 3 | layouts 1 to 14: the Rust refuses the word, and for layout 14 it refuses it with zone 0 too |
//! | 4 | layout 14: the zone's units are above 9 |
//! | 5 | layout 16: the ticks are 25,920,000 or more |
//!
//! | encoding | |
//! |---|---|
//! | 1 | as above |
//! | 9 | the nanoseconds are not 0 to 999,999,999; the Rust, whose count can't hold such, is not asked |
//! | 6 | layouts 1 to 14: the seconds are outside the civil window |
//! | 7 | layouts 1 to 14: jiff's year of the seconds is outside the years column |
//! | 8 | layout 15: p is no u32; layout 16: the day, after the roll, is no i32 |
//!
//! The Rust's error has to be of the right kind too: `Render` is jiff's own refusal, for 3 and 6, and `OutOfRange` the
//! codec's, for the others.

use questions::calendar::{fields_of, WINDOW_FIRST, WINDOW_LAST};
use questions::counts::NANOSECONDS_PER_SECOND;
use questions::rust_side::{decodes, encodes};
use questions::words::layouts::{Layout, NUMBERS};
use questions::words::{decode, encode, Question};
use std::process;
use timeglyph::{ChronoError, PosixNs};

const LAYOUT: u8 = 1;
const RANGE: u8 = 2;
const FIELDS: u8 = 3;
const ZONE: u8 = 4;
const TICKS: u8 = 5;
const WINDOW: u8 = 6;
const YEAR: u8 = 7;
const COUNT: u8 = 8;
const NANOS: u8 = 9;

const TICKS_PER_DAY: i128 = 25_920_000;

/// The instant that a word says, or the number of its refusal.
pub fn decoding(layout: i64, word: i64) -> Result<PosixNs, u8> {
    if !NUMBERS.contains(&layout) {
        return Err(LAYOUT);
    }
    let answer = decodes(layout, word);
    let expected = if !in_range(layout, word) {
        Some(RANGE)
    } else {
        match layout {
            16 => (i128::from(word as u32) >= TICKS_PER_DAY).then_some(TICKS),
            15 => None,
            14 if refuses_fields(&decodes(layout, word & !0xFF)) => Some(FIELDS),
            14 => (word >> 4 & 0xF > 9).then_some(ZONE),
            _ => refuses_fields(&answer).then_some(FIELDS),
        }
    };
    agreed(decode(layout, word), expected, answer)
}

/// The word of an instant, or the number of its refusal.
pub fn encoding(layout: i64, seconds: i64, nanos: i64) -> Result<i64, u8> {
    if !NUMBERS.contains(&layout) {
        return Err(LAYOUT);
    }
    if !(0..1_000_000_000).contains(&nanos) {
        return Err(NANOS);
    }
    let expected = match layout {
        15 => (!nokia_holds(seconds)).then_some(COUNT),
        16 => (!sql_server_holds(seconds, nanos)).then_some(COUNT),
        _ if !(WINDOW_FIRST..=WINDOW_LAST).contains(&seconds) => Some(WINDOW),
        _ => (!Layout::of(layout).years.contains(&year_of(seconds))).then_some(YEAR),
    };
    let answer = encodes(layout, seconds, nanos);
    agreed(encode(layout, seconds, nanos), expected, answer)
}

/// Document 01's range column.
fn in_range(layout: i64, word: i64) -> bool {
    match layout {
        5 => word >= 0 && word >> 20 <= 32_767,
        6 | 13 => (0..=999_999_999_999).contains(&word),
        7 | 8 => (0..1 << 48).contains(&word),
        10 => (0..1 << 56).contains(&word) && word >> 40 <= 32_767,
        11 => (0..1 << 56).contains(&word) && ((word >> 40) as u16).swap_bytes() <= 32_767,
        12 => word >= 0,
        14 => (0..1 << 56).contains(&word),
        16 => true,
        _ => (0..1 << 32).contains(&word),
    }
}

fn refuses_fields(answer: &Result<PosixNs, ChronoError>) -> bool {
    matches!(answer, Err(ChronoError::Render(_)))
}

fn year_of(seconds: i64) -> i64 {
    fields_of(seconds).expect("jiff has the window").year
}

fn nokia_holds(seconds: i64) -> bool {
    u32::try_from(i128::from(seconds) - 2_524_608_000 + 4_294_967_295).is_ok()
}

/// Whether the day fits, where the nearest tick may be the first of the next day.
fn sql_server_holds(seconds: i64, nanos: i64) -> bool {
    let since_1900 = i128::from(seconds) + 2_208_988_800;
    let day = since_1900.div_euclid(86_400);
    let rest = since_1900.rem_euclid(86_400) * NANOSECONDS_PER_SECOND + i128::from(nanos);
    let ticks = (3 * rest + 5_000_000).div_euclid(10_000_000);
    i32::try_from(day + ticks / TICKS_PER_DAY).is_ok()
}

/// The Rust's answer, or the number that the rules give. Stops where the two do not go together.
fn agreed<T>(
    question: Question,
    expected: Option<u8>,
    answer: Result<T, ChronoError>,
) -> Result<T, u8> {
    let rust = match (expected, answer) {
        (None, Ok(value)) => return Ok(value),
        (Some(number @ (FIELDS | WINDOW)), Err(ChronoError::Render(_))) => return Err(number),
        (
            Some(number @ (RANGE | ZONE | TICKS | YEAR | COUNT)),
            Err(ChronoError::OutOfRange { .. }),
        ) => return Err(number),
        (_, Ok(_)) => "accepts it".to_string(),
        (_, Err(ChronoError::Render(text))) => format!("refuses it (Render: {text})"),
        (_, Err(ChronoError::OutOfRange { what, value })) => {
            format!("refuses it (OutOfRange: {what}, {value})")
        }
    };
    let rules = match expected {
        None => "accept it".to_string(),
        Some(number) => format!("refuse it under {number}"),
    };
    eprintln!("record: {question}: the rules {rules}, the Rust {rust}; no list was written");
    process::exit(1)
}
