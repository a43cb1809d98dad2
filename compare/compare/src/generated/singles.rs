//! Single calls: the recorder's boundaries, then random words and instants of each layout.

use super::put_random_instant;
use crate::block;
use crate::direction::{row, Direction};
use crate::part::Part;
use questions::once;
use questions::rows::put_word;
use questions::splitmix::SplitMix;
use questions::words::layouts::NUMBERS;
use questions::words::random::{damaged_word, good_word};
use questions::words::{instant_boundaries, word_boundaries};

pub fn part(inputs: u64, numbers: &mut SplitMix) -> Part {
    let mut part = Part::new("single calls");
    for layout in NUMBERS {
        let words = once(word_boundaries::questions(layout));
        let instants = once(instant_boundaries::questions(layout));
        for (direction, layout, row) in words.iter().chain(&instants).filter_map(row) {
            compare(direction, layout, &row, &mut part);
        }
    }
    for turn in 0.. {
        if part.inputs() >= inputs {
            break;
        }
        for layout in NUMBERS {
            let mut word = [0; 8];
            put_word(&mut word, good_word(layout, numbers));
            compare(Direction::Decode, layout as u32, &word, &mut part);
            put_word(&mut word, damaged_word(layout, turn, numbers));
            compare(Direction::Decode, layout as u32, &word, &mut part);
            let mut instant = [0; 12];
            put_random_instant(&mut instant, layout, turn, numbers);
            compare(Direction::Encode, layout as u32, &instant, &mut part);
        }
    }
    part
}

fn compare(direction: Direction, layout: u32, read: &[u8], part: &mut Part) {
    block::compare_singly(direction, layout, read, |row, outcome| {
        part.count(outcome, || {
            format!("{}, alone", direction.question(layout, row))
        });
    });
}
