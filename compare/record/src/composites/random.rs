//! How many random questions the list has, and their seed.

use questions::composites::{random, Question, Written};
use questions::splitmix::SplitMix;

pub const SEED: u64 = 16_010_101;

/// Of each of the three composites in two numbers.
const NUMBERS: usize = 600;

/// Of each of the three kinds of byte stamps.
const GOOD_STAMPS: usize = 600;
const DAMAGED_STAMPS: usize = 600;

pub fn numbers(numbers: &mut SplitMix) -> Vec<Question> {
    (0..NUMBERS)
        .flat_map(|_| random::in_numbers(numbers))
        .collect()
}

pub fn good(written: Written, numbers: &mut SplitMix) -> Vec<Question> {
    (0..GOOD_STAMPS)
        .map(|_| random::good(written, numbers))
        .collect()
}

pub fn damaged(written: Written, numbers: &mut SplitMix) -> Vec<Question> {
    (0..DAMAGED_STAMPS)
        .map(|turn| random::damaged(written, turn, numbers))
        .collect()
}
