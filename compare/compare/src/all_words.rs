//! Every word of a layout of 32 bits.

use crate::block;
use crate::direction::Direction;
use crate::grouped::grouped;
use crate::part::Part;
use crate::report::Report;
use questions::rows::{put_word, WORD};

const WORDS: i64 = 1 << 32;

/// How often the progress is told on standard error.
const TOLD: i64 = 64;

pub fn run(layout: u32) -> Report {
    println!("words         every word of layout {layout}");
    let mut part = Part::new(&format!("layout {layout}, every word"));
    let mut read = vec![0; block::ROWS * WORD];
    for first in (0..WORDS).step_by(block::ROWS) {
        for (word, row) in (first..).zip(read.chunks_exact_mut(WORD)) {
            put_word(row, word);
        }
        block::compare(Direction::Decode, layout, &read, |row, outcome| {
            part.count(outcome, || Direction::Decode.question(layout, row));
        });
        if part.inputs() as i64 % (WORDS / TOLD) == 0 {
            let (inputs, differ) = (grouped(part.inputs()), grouped(part.differ.count));
            eprintln!("compare: {inputs} words of 4,294,967,296; {differ} differ");
        }
    }
    let mut report = Report::default();
    report.push(part);
    report
}
