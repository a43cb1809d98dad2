//! Columns of no row, of the most rows, and of one more.

use crate::columns::{at, instant_bytes, stopped, why, word_bytes, GOOD_WORD, ITS_SECONDS};
use sleetrick::{
    decode_column, decode_words, encode_column, encode_instants, Layout, Reason, Slot, MOST_ROWS,
};

#[test]
fn no_row() {
    for &layout in Layout::ALL {
        assert_eq!(decode_column(layout, &[], &mut []).all(), Ok(&[][..]));
        assert_eq!(encode_column(layout, &[], &mut []).all(), Ok(&[][..]));
        assert_eq!(decode_words(layout, &[], &mut []).all(), Ok(&[][..]));
        assert_eq!(encode_instants(layout, &[], &mut []).all(), Ok(&[][..]));
    }
}

#[test]
fn the_most_rows_in_bytes() {
    let words = word_bytes(&vec![GOOD_WORD; MOST_ROWS]);
    let instants = instant_bytes(&vec![at(ITS_SECONDS); MOST_ROWS]);
    let mut decoded = vec![0; instants.len()];
    let done = decode_column(Layout::FatDos, &words, &mut decoded);
    assert_eq!((done.rows(), done.refusal()), (MOST_ROWS, None));
    assert!(done.results() == instants);
    let mut encoded = vec![0; words.len()];
    let done = encode_column(Layout::FatDos, &instants, &mut encoded);
    assert_eq!((done.rows(), done.refusal()), (MOST_ROWS, None));
    assert!(done.results() == words);
}

#[test]
fn the_most_rows_in_slots() {
    let words = vec![GOOD_WORD; MOST_ROWS];
    let instants = vec![at(ITS_SECONDS); MOST_ROWS];
    let mut room = vec![Slot::EMPTY; MOST_ROWS];
    assert!(decode_words(Layout::FatDos, &words, &mut room).all() == Ok(&instants[..]));
    let mut room = vec![Slot::EMPTY; MOST_ROWS];
    assert!(encode_instants(Layout::FatDos, &instants, &mut room).all() == Ok(&words[..]));
}

#[test]
fn one_row_more() {
    let rows = MOST_ROWS + 1;
    let words = vec![GOOD_WORD; rows];
    let instants = vec![at(ITS_SECONDS); rows];
    let refused = stopped(0, Reason::Column);

    let mut output = vec![0xAA; rows * 12];
    let done = decode_column(Layout::FatDos, &word_bytes(&words), &mut output);
    assert_eq!(why(done), refused);
    assert!(output.iter().all(|&byte| byte == 0xAA));

    let mut output = vec![0xAA; rows * 8];
    let done = encode_column(Layout::FatDos, &instant_bytes(&instants), &mut output);
    assert_eq!(why(done), refused);
    assert!(output.iter().all(|&byte| byte == 0xAA));

    let mut room = vec![Slot::EMPTY; rows];
    assert_eq!(
        why(decode_words(Layout::FatDos, &words, &mut room)),
        refused
    );
    let mut room = vec![Slot::EMPTY; rows];
    let done = encode_instants(Layout::FatDos, &instants, &mut room);
    assert_eq!(why(done), refused);
}
