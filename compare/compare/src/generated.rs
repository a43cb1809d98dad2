//! The seeded comparison: every boundary and many dates once, and random inputs up to the number that is wanted.

mod columns;
mod composites;
mod dates;
mod singles;

use crate::arguments::LAYOUTS_OF_32_BITS;
use crate::block;
use crate::direction::{row, Direction};
use crate::part::Part;
use crate::report::Report;
use questions::once;
use questions::rows::{put_instant, put_word};
use questions::splitmix::SplitMix;
use questions::words::layouts::NUMBERS;
use questions::words::random::{damaged_word, good_word, instant};
use questions::words::{instant_boundaries, word_boundaries, Question};

/// The random inputs of each part, in sixteenths of them all.
const GOOD_WORDS: u64 = 3;
const DAMAGED_WORDS: u64 = 3;
const SLICE: u64 = 2;
const INSTANTS: u64 = 3;
const SINGLES: u64 = 1;
const COLUMNS: u64 = 2;
const COMPOSITES: u64 = 2;

pub fn run(inputs: u64, seed: u64) -> Report {
    println!("seed          {seed}");
    let numbers = &mut SplitMix::new(seed);
    let mut report = Report::default();
    let edges = word_boundaries::questions;
    report.push(boundaries("boundaries of words", edges));
    let edges = instant_boundaries::questions;
    report.push(boundaries("boundaries of instants", edges));
    report.push(dates::part("dates, decoded", Direction::Decode, numbers));
    report.push(dates::part("dates, encoded", Direction::Encode, numbers));

    let left = inputs.saturating_sub(report.inputs());
    let share = |sixteenths| left.div_ceil(16) * sixteenths;
    let make = |layout, _| good_word(layout, numbers);
    report.push(words("good words", share(GOOD_WORDS), make));
    let make = |layout, turn| damaged_word(layout, turn, numbers);
    report.push(words("damaged words", share(DAMAGED_WORDS), make));
    report.push(slice(share(SLICE), numbers));
    report.push(instants(share(INSTANTS), numbers));
    report.push(singles::part(share(SINGLES), numbers));
    report.push(columns::part(share(COLUMNS), numbers));
    report.push(composites::part(share(COMPOSITES), numbers));
    report
}

/// The recorder's boundaries of each layout, but for instants that the Rust can't be given.
fn boundaries(name: &str, questions: fn(i64) -> Vec<Question>) -> Part {
    let mut part = Part::new(name);
    for layout in NUMBERS {
        let rows = once(questions(layout))
            .iter()
            .filter_map(row)
            .collect::<Vec<_>>();
        let Some(&(direction, layout, _)) = rows.first() else {
            continue;
        };
        let read: Vec<u8> = rows.into_iter().flat_map(|(_, _, row)| row).collect();
        compare(direction, layout, &read, &mut part);
    }
    part
}

fn words(name: &str, inputs: u64, mut word: impl FnMut(i64, usize) -> i64) -> Part {
    let mut part = Part::new(name);
    for layout in NUMBERS {
        let make = |read: &mut [u8], turn| put_word(read, word(layout, turn));
        blocks(
            Direction::Decode,
            layout as u32,
            inputs.div_ceil(16),
            make,
            &mut part,
        );
    }
    part
}

fn instants(inputs: u64, numbers: &mut SplitMix) -> Part {
    let mut part = Part::new("instants");
    for layout in NUMBERS {
        let make = |read: &mut [u8], turn| put_random_instant(read, layout, turn, numbers);
        blocks(
            Direction::Encode,
            layout as u32,
            inputs.div_ceil(16),
            make,
            &mut part,
        );
    }
    part
}

/// Of the words of 32 bits: so many, equally far apart from a random one on.
fn slice(inputs: u64, numbers: &mut SplitMix) -> Part {
    let mut part = Part::new("words of 32 bits, a slice");
    let inputs = inputs.div_ceil(LAYOUTS_OF_32_BITS.len() as u64);
    for layout in LAYOUTS_OF_32_BITS {
        // Odd, so that the lowest bits change too.
        let step = ((1 << 32) / inputs.max(1)) as u32 | 1;
        let mut word = numbers.below(1 << 32) as u32;
        let make = |read: &mut [u8], _| {
            put_word(read, word.into());
            word = word.wrapping_add(step);
        };
        blocks(Direction::Decode, layout, inputs, make, &mut part);
    }
    part
}

/// Makes so many rows and has them compared, a block at a time.
fn blocks(
    direction: Direction,
    layout: u32,
    inputs: u64,
    mut make: impl FnMut(&mut [u8], usize),
    part: &mut Part,
) {
    let mut left = inputs as usize;
    while left > 0 {
        let rows = left.min(block::ROWS);
        let mut read = vec![0; rows * direction.read()];
        for (turn, row) in read.chunks_exact_mut(direction.read()).enumerate() {
            make(row, turn);
        }
        compare(direction, layout, &read, part);
        left -= rows;
    }
}

fn compare(direction: Direction, layout: u32, read: &[u8], part: &mut Part) {
    block::compare(direction, layout, read, |row, outcome| {
        part.count(outcome, || direction.question(layout, row));
    });
}

fn put_random_instant(row: &mut [u8], layout: i64, turn: usize, numbers: &mut SplitMix) {
    let (seconds, nanos) = instant(layout, turn, numbers);
    put_instant(row, seconds, nanos as u32);
}
