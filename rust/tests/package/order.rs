//! Where two refusals hold, the one that comes first is given.

use crate::columns::{at, decode, encode, row, stopped, why, word_bytes, GOOD_WORD};
use sleetrick::{
    decode_column, decode_words, encode_column, encode_instants, Layout, Reason, Slot, MOST_ROWS,
};

const TOO_MANY: usize = MOST_ROWS + 1;

#[test]
fn rows_before_the_most_rows() {
    let mut output = vec![0; TOO_MANY * 12 - 12];
    let done = decode_column(Layout::FatDos, &vec![0; TOO_MANY * 8], &mut output);
    assert_eq!(why(done), stopped(0, Reason::Rows));
    let mut output = vec![0; TOO_MANY * 8 - 8];
    let done = encode_column(Layout::FatDos, &vec![0; TOO_MANY * 12], &mut output);
    assert_eq!(why(done), stopped(0, Reason::Rows));
    let mut room = vec![Slot::EMPTY; TOO_MANY - 1];
    let done = decode_words(Layout::FatDos, &vec![0; TOO_MANY], &mut room);
    assert_eq!(why(done), stopped(0, Reason::Rows));
    let mut room = vec![Slot::EMPTY; TOO_MANY - 1];
    let done = encode_instants(Layout::FatDos, &vec![at(0); TOO_MANY], &mut room);
    assert_eq!(why(done), stopped(0, Reason::Rows));
}

#[test]
fn a_row_before_later_rows() {
    let words = [GOOD_WORD, 0, -1];
    let mut output = [0; 36];
    let done = decode_column(Layout::FatDos, &word_bytes(&words), &mut output);
    assert_eq!(why(done), stopped(1, Reason::Fields));
    let words = [GOOD_WORD, -1, 0];
    let mut output = [0; 36];
    let done = decode_column(Layout::FatDos, &word_bytes(&words), &mut output);
    assert_eq!(why(done), stopped(1, Reason::Range));
}

/// Each word is also refused under a later number of 2, 3, 4.
#[test]
fn within_a_word() {
    assert_eq!(decode(Layout::Gsm, 1 << 56 | 0xA0), Err(Reason::Range));
    assert_eq!(
        decode(Layout::Gsm, 0x00_13_10_00_00_00_A0),
        Err(Reason::Fields)
    );
}

/// Each instant is also refused under a later number of 9, 6, 7, 8.
#[test]
fn within_an_instant() {
    let late = |layout, seconds| {
        let mut word = [0; 8];
        why(encode_column(
            layout,
            &row(seconds, 1_000_000_000),
            &mut word,
        ))
    };
    for (layout, seconds) in [
        (Layout::FatDos, i64::MAX),
        (Layout::FatDos, 0),
        (Layout::NokiaLe, i64::MAX),
        (Layout::SqlServer, i64::MAX),
    ] {
        assert_eq!(late(layout, seconds), stopped(0, Reason::Nanos));
    }
    assert_eq!(encode(Layout::FatDos, at(i64::MIN)), Err(Reason::Window));
}
