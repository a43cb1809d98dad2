//! How many random questions the list has, and their seed.

use questions::splitmix::SplitMix;
use questions::words::random::{damaged_word, good_word, instant};
use questions::words::{decode, encode, Question};

pub const SEED: u64 = 19_000_101;

/// Of each layout.
const GOOD_WORDS: usize = 600;
const DAMAGED_WORDS: usize = 300;
const INSTANTS: usize = 600;

pub fn good(layout: i64, numbers: &mut SplitMix) -> Vec<Question> {
    (0..GOOD_WORDS)
        .map(|_| decode(layout, good_word(layout, numbers)))
        .collect()
}

pub fn damaged(layout: i64, numbers: &mut SplitMix) -> Vec<Question> {
    (0..DAMAGED_WORDS)
        .map(|turn| decode(layout, damaged_word(layout, turn, numbers)))
        .collect()
}

pub fn instants(layout: i64, numbers: &mut SplitMix) -> Vec<Question> {
    (0..INSTANTS)
        .map(|turn| {
            let (seconds, nanos) = instant(layout, turn, numbers);
            encode(layout, seconds, nanos)
        })
        .collect()
}
