//! Lines at the longest that the program reads, and past it. Each is a stamp of some kind in hex.

use crate::composites;
use crate::lists::{bad_line, Part};
use questions::composites::Written::{Oracle, Udf};
use questions::composites::{stamp, Written};

/// The longest line that the program answers, its LF not counted.
const LONGEST: usize = 32_768;

/// More than the program's buffers hold.
const FAR_TOO_LONG: usize = 70_000;

pub fn part() -> Part {
    let longest = composites::line(&stamp(Udf, &fill(Udf, LONGEST)));
    assert_eq!(longest.question.len(), LONGEST);
    assert_eq!(longest.answer, "refused 10");
    Part {
        name: "long lines",
        lines: vec![
            longest,
            bad_line(stamp(Oracle, &fill(Oracle, LONGEST + 1)).to_string()),
            bad_line(stamp(Udf, &fill(Udf, FAR_TOO_LONG)).to_string()),
            bad_line("x".repeat(FAR_TOO_LONG)),
        ],
    }
}

/// As many bytes as fill a line of this length.
fn fill(written: Written, line: usize) -> Vec<u8> {
    let word_and_space = written.word().len() + 1;
    vec![1; (line - word_and_space) / 2]
}
