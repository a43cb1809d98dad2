//! Questions on the six composites.

use crate::composites::compare;
use crate::part::Part;
use questions::composites::{each, number_boundaries, random, stamp_boundaries, Written};
use questions::once;
use questions::splitmix::SplitMix;

/// The recorder's boundaries, then random ones: by turns three in numbers, three good stamps and three damaged ones.
pub fn part(inputs: u64, numbers: &mut SplitMix) -> Part {
    let mut part = Part::new("composites");
    compare(&once(number_boundaries::questions()), &mut part);
    compare(&once(each(stamp_boundaries::questions)), &mut part);
    for turn in 0.. {
        if part.inputs() >= inputs {
            break;
        }
        compare(&random::in_numbers(numbers), &mut part);
        for written in Written::ALL {
            let good = random::good(written, numbers);
            let damaged = random::damaged(written, turn % 3, numbers);
            compare(&[good, damaged], &mut part);
        }
    }
    part
}
