//! Every refusal of a row: alone, and as the second row of a column in bytes and in slots.

use crate::columns::{
    at, decode, encode, instant_bytes, row, stopped, why, word_bytes, GOOD_INSTANT,
};
use sleetrick::{
    decode_column, decode_words, encode_column, encode_instants, Instant, Layout, Reason, Slot,
};

/// Those of civil fields, 1 to 14.
const CIVIL: std::ops::Range<usize> = 0..14;

fn refuses_word(layout: Layout, word: i64, reason: Reason) {
    assert_eq!(decode(layout, word), Err(reason), "{layout:?} {word}");
    let good = encode(layout, GOOD_INSTANT).expect("every layout has room for 2026");
    let words = [good, word];
    let mut bytes = [0; 24];
    let done = decode_column(layout, &word_bytes(&words), &mut bytes);
    assert_eq!(done.results().len(), 12);
    assert_eq!(why(done), stopped(1, reason));
    let mut room = [Slot::EMPTY; 2];
    let done = decode_words(layout, &words, &mut room);
    assert_eq!(done.results().len(), 1);
    assert_eq!(why(done), stopped(1, reason));
}

fn refuses_instant(layout: Layout, instant: Instant, reason: Reason) {
    assert_eq!(
        encode(layout, instant),
        Err(reason),
        "{layout:?} {instant:?}"
    );
    let instants = [GOOD_INSTANT, instant];
    let mut bytes = [0; 16];
    let done = encode_column(layout, &instant_bytes(&instants), &mut bytes);
    assert_eq!(done.results().len(), 8);
    assert_eq!(why(done), stopped(1, reason));
    let mut room = [Slot::EMPTY; 2];
    let done = encode_instants(layout, &instants, &mut room);
    assert_eq!(done.results().len(), 1);
    assert_eq!(why(done), stopped(1, reason));
}

#[test]
fn word_outside_its_range() {
    for &layout in &Layout::ALL[..15] {
        refuses_word(layout, -1, Reason::Range);
    }
    refuses_word(Layout::FatDos, 1 << 32, Reason::Range);
}

/// 0 has no day.
#[test]
fn fields_not_good() {
    for &layout in &Layout::ALL[CIVIL] {
        refuses_word(layout, 0, Reason::Fields);
    }
}

#[test]
fn zone_units() {
    refuses_word(Layout::Gsm, 0x00_10_10_00_00_00_A0, Reason::Zone);
}

#[test]
fn ticks() {
    refuses_word(Layout::SqlServer, 25_920_000, Reason::Ticks);
}

#[test]
fn seconds_outside_the_window() {
    for &layout in &Layout::ALL[CIVIL] {
        refuses_instant(layout, at(-377_705_023_202), Reason::Window);
        refuses_instant(layout, at(253_402_207_201), Reason::Window);
    }
}

/// No layout has room for the year -9999.
#[test]
fn year_outside_its_column() {
    for &layout in &Layout::ALL[CIVIL] {
        refuses_instant(layout, at(-377_705_023_201), Reason::Year);
    }
    refuses_instant(Layout::FatDos, at(315_532_799), Reason::Year);
}

#[test]
fn count_outside_its_word() {
    refuses_instant(Layout::NokiaLe, at(2_524_608_001), Reason::Count);
    refuses_instant(Layout::SqlServer, at(i64::MAX), Reason::Count);
}

/// Only a column in bytes can have them.
#[test]
fn nanoseconds() {
    for &layout in Layout::ALL {
        let instants = [
            row(GOOD_INSTANT.seconds(), 0),
            row(GOOD_INSTANT.seconds(), 1_000_000_000),
        ]
        .concat();
        let mut bytes = [0; 16];
        let done = encode_column(layout, &instants, &mut bytes);
        assert_eq!(why(done), stopped(1, Reason::Nanos));
    }
}
