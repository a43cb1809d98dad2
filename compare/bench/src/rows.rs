//! The columns that are timed, in bytes.

use questions::splitmix::SplitMix;
use sleetrick::{INSTANT_BYTES, MOST_ROWS, WORD_BYTES};
use std::hint::black_box;

/// As many as a column may have.
pub const ROWS: usize = MOST_ROWS;

/// Random instants, with seconds from the first to the last.
pub fn instants(first: i64, last: i64) -> Vec<u8> {
    let mut numbers = SplitMix::new(first as u64);
    let mut column = Vec::with_capacity(ROWS * INSTANT_BYTES);
    for _ in 0..ROWS {
        let seconds = numbers.between(first, last);
        let nanos = numbers.below(1_000_000_000) as u32;
        column.extend(seconds.to_le_bytes());
        column.extend(nanos.to_le_bytes());
    }
    column
}

pub fn room_for_instants() -> Vec<u8> {
    room(ROWS * INSTANT_BYTES)
}

pub fn room_for_words() -> Vec<u8> {
    room(ROWS * WORD_BYTES)
}

pub fn room_for_counts() -> Vec<i128> {
    room(ROWS)
}

/// The compiler can't tell that nobody reads what is written there.
fn room<T: Clone + Default>(length: usize) -> Vec<T> {
    black_box(vec![T::default(); length])
}
