//! What a `Done` says.

use crate::columns::{at, reason, stopped, why, GOOD_WORD, ITS_SECONDS};
use sleetrick::{decode_words, Layout, Reason, Slot};

#[test]
fn done_with_every_row() {
    let mut room = [Slot::EMPTY; 2];
    let done = decode_words(Layout::FatDos, &[GOOD_WORD; 2], &mut room);
    assert_eq!((done.rows(), done.refusal()), (2, None));
    assert_eq!(done.all(), Ok(&[at(ITS_SECONDS); 2][..]));
}

#[test]
fn done_until_a_refusal() {
    let mut room = [Slot::EMPTY; 3];
    let done = decode_words(Layout::FatDos, &[GOOD_WORD, 0, GOOD_WORD], &mut room);
    assert_eq!((done.rows(), reason(&done)), (1, Some(Reason::Fields)));
    assert_eq!(done.results(), [at(ITS_SECONDS)]);
    assert_eq!(why(done), stopped(1, Reason::Fields));
}
