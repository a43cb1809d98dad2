//! Every date of the layouts whose years are few, at a random time of the day.

use super::blocks;
use crate::direction::Direction;
use crate::part::Part;
use questions::rows::{put_instant, put_word};
use questions::splitmix::SplitMix;
use questions::words::layouts::Layout;
use questions::words::random::{civil_seconds, civil_word};

/// The layouts of civil fields but 4, 5, 10 and 11, which have thousands of years.
const LAYOUTS: [u32; 10] = [1, 2, 3, 6, 7, 8, 9, 12, 13, 14];

const DAY: usize = 86_400;

pub fn part(name: &str, direction: Direction, numbers: &mut SplitMix) -> Part {
    let mut part = Part::new(name);
    for number in LAYOUTS {
        let layout = Layout::of(number.into());
        let mut midnights = civil_seconds(&layout).step_by(DAY);
        let days = midnights.clone().count() as u64;
        let make = |row: &mut [u8], _| {
            let midnight = midnights.next().expect("there are as many rows as days");
            let second = midnight + numbers.below(DAY as u64) as i64;
            match direction {
                Direction::Decode => put_word(row, civil_word(&layout, second)),
                Direction::Encode => put_instant(row, second, numbers.below(1_000_000_000) as u32),
            }
        };
        blocks(direction, number, days, make, &mut part);
    }
    part
}
