//! Random columns, in bytes and in slots, against the single calls made row by row.

use crate::columns::{decode, encode, instant, instant_bytes, reason, word_bytes};
use crate::splitmix::SplitMix;
use sleetrick::{
    decode_column, decode_words, encode_column, encode_instants, Instant, Layout, Reason, Slot,
};

const COLUMNS_PER_LAYOUT: usize = 30;

/// Longer than several of the blocks that slots are filled in.
const MOST: u64 = 1_200;

/// The seconds of 2000 to 2049, which every layout has room for.
const FIRST: i64 = 946_684_800;
const LAST: i64 = 2_524_607_999;

#[test]
fn words() {
    let mut numbers = SplitMix::new(20_261_116);
    for &layout in Layout::ALL {
        for _ in 0..COLUMNS_PER_LAYOUT {
            let instants = column(&mut numbers, good_instant);
            let mut words: Vec<i64> = instants
                .into_iter()
                .map(|instant| encode(layout, instant).expect("every layout has room"))
                .collect();
            damage(&mut words, &mut numbers, SplitMix::of_any_length);

            let (expected, refusal) = row_by_row(&words, |word| decode(layout, word));
            let mut bytes = vec![0; words.len() * 12];
            let done = decode_column(layout, &word_bytes(&words), &mut bytes);
            assert_eq!((done.rows(), reason(&done)), (expected.len(), refusal));
            assert!(done.results() == instant_bytes(&expected));
            let mut room = vec![Slot::EMPTY; words.len()];
            let done = decode_words(layout, &words, &mut room);
            assert_eq!((done.rows(), reason(&done)), (expected.len(), refusal));
            assert!(done.results() == expected);
        }
    }
}

#[test]
fn instants() {
    let mut numbers = SplitMix::new(20_261_117);
    for &layout in Layout::ALL {
        for _ in 0..COLUMNS_PER_LAYOUT {
            let mut instants = column(&mut numbers, good_instant);
            damage(&mut instants, &mut numbers, any_instant);

            let (expected, refusal) = row_by_row(&instants, |instant| encode(layout, instant));
            let mut bytes = vec![0; instants.len() * 8];
            let done = encode_column(layout, &instant_bytes(&instants), &mut bytes);
            assert_eq!((done.rows(), reason(&done)), (expected.len(), refusal));
            assert!(done.results() == word_bytes(&expected));
            let mut room = vec![Slot::EMPTY; instants.len()];
            let done = encode_instants(layout, &instants, &mut room);
            assert_eq!((done.rows(), reason(&done)), (expected.len(), refusal));
            assert!(done.results() == expected);
        }
    }
}

fn column<T>(numbers: &mut SplitMix, row: impl Fn(&mut SplitMix) -> T) -> Vec<T> {
    let rows = numbers.below(MOST + 1);
    (0..rows).map(|_| row(numbers)).collect()
}

fn nanos(numbers: &mut SplitMix) -> u32 {
    u32::try_from(numbers.below(1_000_000_000)).unwrap()
}

fn good_instant(numbers: &mut SplitMix) -> Instant {
    instant(numbers.between(FIRST, LAST), nanos(numbers))
}

fn any_instant(numbers: &mut SplitMix) -> Instant {
    instant(numbers.of_any_length(), nanos(numbers))
}

/// Puts another row in up to three places.
fn damage<T>(rows: &mut [T], numbers: &mut SplitMix, row: impl Fn(&mut SplitMix) -> T) {
    for _ in 0..numbers.below(4) {
        if let Some(last) = rows.len().checked_sub(1) {
            let place = numbers.below(last as u64 + 1);
            rows[usize::try_from(place).unwrap()] = row(numbers);
        }
    }
}

/// What the single calls give, until one refuses.
fn row_by_row<In: Copy, Out>(
    rows: &[In],
    call: impl Fn(In) -> Result<Out, Reason>,
) -> (Vec<Out>, Option<Reason>) {
    let mut results = Vec::new();
    for &row in rows {
        match call(row) {
            Ok(result) => results.push(result),
            Err(reason) => return (results, Some(reason)),
        }
    }
    (results, None)
}
