//! Refusal 11: a column that is not whole rows, or an output that has not exactly as many.

use crate::columns::{stopped, why, GOOD_INSTANT, GOOD_WORD};
use sleetrick::{
    decode_column, decode_words, encode_column, encode_instants, Layout, Reason, Slot, MOST_ROWS,
};

/// Bytes of words, and bytes of instants that do not go with them.
const MISFITS: [(usize, usize); 12] = [
    (0, 1),
    (0, 12),
    (1, 0),
    (7, 12),
    (8, 0),
    (8, 11),
    (8, 13),
    (8, 24),
    (9, 12),
    (12, 12),
    (16, 12),
    (16, 16),
];

#[test]
fn bytes() {
    for (words, instants) in MISFITS {
        let mut output = vec![0; instants];
        let done = decode_column(Layout::FatDos, &vec![0; words], &mut output);
        assert_eq!(why(done), stopped(0, Reason::Rows));
        let mut output = vec![0; words];
        let done = encode_column(Layout::FatDos, &vec![0; instants], &mut output);
        assert_eq!(why(done), stopped(0, Reason::Rows));
    }
}

#[test]
fn slots() {
    for (rows, slots) in [(0, 1), (1, 0), (2, 1), (1, 2), (MOST_ROWS, MOST_ROWS - 1)] {
        let mut room = vec![Slot::EMPTY; slots];
        let done = decode_words(Layout::FatDos, &vec![GOOD_WORD; rows], &mut room);
        assert_eq!(why(done), stopped(0, Reason::Rows));
        let mut room = vec![Slot::EMPTY; slots];
        let done = encode_instants(Layout::FatDos, &vec![GOOD_INSTANT; rows], &mut room);
        assert_eq!(why(done), stopped(0, Reason::Rows));
    }
}
