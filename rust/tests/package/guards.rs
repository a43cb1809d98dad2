//! The bytes that a call may not touch: those of the input, those around both buffers, and those of rows that are not done.

use crate::columns::{
    at, instant_bytes, reason, word_bytes, Column, GOOD_INSTANT, GOOD_WORD, ITS_SECONDS,
};
use sleetrick::{decode_column, encode_column, Layout, Reason};

const GUARD: usize = 64;
const FILLER: u8 = 0xAA;

/// Runs a column between guard bytes. The output holds filler before; after, it has to begin with what is expected of the
/// rows that are done, and hold filler in all others.
fn guarded(
    column: Column,
    layout: Layout,
    input: &[u8],
    output: usize,
    expected: &[u8],
) -> Option<Reason> {
    let mut read = vec![FILLER; GUARD];
    read.extend(input);
    read.extend([FILLER; GUARD]);
    let read_before = read.clone();
    let mut written = vec![FILLER; GUARD + output + GUARD];

    let done = column(
        layout,
        &read[GUARD..GUARD + input.len()],
        &mut written[GUARD..GUARD + output],
    );
    assert!(done.results() == expected);
    let reason = reason(&done);

    assert!(read == read_before);
    let (before, rest) = written.split_at(GUARD);
    let (results, after) = rest.split_at(expected.len());
    assert!(before.iter().all(|&byte| byte == FILLER));
    assert!(results == expected);
    assert!(after.iter().all(|&byte| byte == FILLER));
    reason
}

#[test]
fn refused_as_a_whole() {
    let words = word_bytes(&[GOOD_WORD; 3]);
    let instants = instant_bytes(&[GOOD_INSTANT; 3]);
    let rows = Some(Reason::Rows);
    for output in [0, 1, 12, 24, 35, 37, 48] {
        assert_eq!(
            guarded(decode_column, Layout::FatDos, &words, output, &[]),
            rows
        );
    }
    for output in [0, 1, 8, 16, 23, 25, 32] {
        assert_eq!(
            guarded(encode_column, Layout::FatDos, &instants, output, &[]),
            rows
        );
    }
}

/// A refusal in each of eight rows, and in none.
#[test]
fn refused_in_a_row() {
    for refused in 0..=8 {
        let mut words = [GOOD_WORD; 8];
        let mut instants = [at(ITS_SECONDS); 8];
        let mut refusal = (None, None);
        if refused < 8 {
            words[refused] = -1;
            instants[refused] = at(i64::MAX);
            refusal = (Some(Reason::Range), Some(Reason::Window));
        }
        let (words, instants) = (word_bytes(&words), instant_bytes(&instants));
        let decoded = &instants[..refused * 12];
        let encoded = &words[..refused * 8];
        assert_eq!(
            guarded(decode_column, Layout::FatDos, &words, 96, decoded),
            refusal.0
        );
        assert_eq!(
            guarded(encode_column, Layout::FatDos, &instants, 64, encoded),
            refusal.1
        );
    }
}
