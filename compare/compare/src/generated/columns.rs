//! Columns of any layout, in one call each, with damaged rows.

use super::put_random_instant;
use crate::column;
use crate::direction::Direction;
use crate::part::Part;
use questions::rows::put_word;
use questions::splitmix::SplitMix;
use questions::words::random::{damaged_word, good_word};

/// Columns of up to 1,023 rows: of each three, two have damaged rows, one of them many.
pub fn part(inputs: u64, numbers: &mut SplitMix) -> Part {
    let mut part = Part::new("rows of columns");
    while part.inputs() < inputs {
        let layout = numbers.between(1, 16);
        let direction = match numbers.coin() {
            true => Direction::Decode,
            false => Direction::Encode,
        };
        let length = numbers.below(11) as u32;
        let rows = numbers.of_bit_length(length);
        let damage = match numbers.below(3) {
            0 => 0,
            1 => 1,
            _ => numbers.below(rows + 1),
        };
        let mut read = vec![0; rows as usize * direction.read()];
        for (turn, row) in read.chunks_exact_mut(direction.read()).enumerate() {
            let damaged = numbers.below(rows) < damage;
            match direction {
                Direction::Decode if damaged => put_word(row, damaged_word(layout, turn, numbers)),
                Direction::Decode => put_word(row, good_word(layout, numbers)),
                // Of its turns, 0 to 3 have seconds that the encoder takes.
                Direction::Encode => {
                    put_random_instant(row, layout, if damaged { turn } else { turn % 4 }, numbers)
                }
            }
        }
        column::compare(direction, layout as u32, &read, &mut part);
    }
    part
}
