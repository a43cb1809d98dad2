//! Lines about as long as a line may be, good ones and bad ones, and lines that are far too long. Only `e` asks in more than 43
//! bytes, and a good line gets long by leading zeros: 61 bytes are three numbers of 19 digits, and each may have a minus, the
//! nanoseconds where they are 0. A layout with a minus is refused, so 63 bytes are the longest that have a word, and 64 are
//! the longest that are a question.

use super::line;
use crate::lists::{bad_line, Line, Part};
use questions::line::{question, LONGEST};
use std::ops::RangeInclusive;

/// The lengths that are tried one by one.
const LENGTHS: RangeInclusive<usize> = 57..=LONGEST;

/// The most digits of a number.
const DIGITS: usize = 19;

/// What the program reads at a time.
const BLOCK: usize = 65_536;

/// A letter, three numbers and the spaces between, without the digits.
const LETTER_AND_SPACES: usize = 4;

/// The layout, seconds and nanoseconds that are asked, with their signs: a minus before none, before the seconds, before the
/// seconds and the nanoseconds, before all. Layout 16 has a word for all but the last.
const NUMBERS: [[(&str, i64); 3]; 4] = [
    [("", 16), ("", 1_709_164_801), ("", 5_000_000)],
    [("", 16), ("-", 1_709_164_801), ("", 998_333_334)],
    [("", 16), ("-", 1_709_164_801), ("-", 0)],
    [("-", 16), ("-", 1_709_164_801), ("-", 0)],
];

pub fn parts() -> Vec<Part> {
    vec![
        Part {
            name: "lines of 57 to 64 bytes",
            lines: LENGTHS.flat_map(good).map(asks).collect(),
        },
        Part {
            name: "bad lines of 57 to 64 bytes",
            lines: LENGTHS.flat_map(bad).map(asks_nothing).collect(),
        },
        Part {
            name: "lines of 65 bytes and more",
            lines: too_long().into_iter().map(asks_nothing).collect(),
        },
    ]
}

fn asks(text: String) -> Line {
    let Some(asked) = question(text.as_bytes()) else {
        panic!("not a question: {text}");
    };
    Line {
        question: text,
        ..line(&asked)
    }
}

fn asks_nothing(text: String) -> Line {
    assert!(question(text.as_bytes()).is_none(), "a question: {text}");
    bad_line(text)
}

/// The questions of a length: all signs for which it has digits enough, and each number by turns is the shortest.
fn good(length: usize) -> Vec<String> {
    let mut lines = Vec::new();
    for numbers in NUMBERS {
        let signs: usize = numbers.iter().map(|(sign, _)| sign.len()).sum();
        let digits = length - LETTER_AND_SPACES - signs;
        let Some(missing) = (3 * DIGITS).checked_sub(digits) else {
            continue;
        };
        for shortest in 0..numbers.len() {
            let mut text = "e".to_string();
            for (place, (sign, size)) in numbers.into_iter().enumerate() {
                let width = DIGITS - if place == shortest { missing } else { 0 };
                text += &format!(" {sign}{size:0width$}");
            }
            assert_eq!(text.len(), length, "{text}");
            lines.push(text);
            if missing == 0 {
                break;
            }
        }
    }
    lines
}

/// Lines of a length that ask nothing: no question at all, and the questions of the length, each with a byte that is wrong,
/// and those that are shorter by a byte, with a byte behind.
fn bad(length: usize) -> Vec<String> {
    let mut lines: Vec<String> = ["x", "7", " ", "-", "e ", "\r"]
        .map(|text| text.repeat(length)[..length].to_string())
        .into();
    for text in good(length) {
        lines.push(text.replacen('e', "d", 1));
        lines.push(text.replacen("e ", "e\t", 1));
        lines.push(format!("{}x", &text[..length - 1]));
        lines.push(format!("{} ", &text[..length - 1]));
    }
    for text in good(length - 1) {
        lines.push(format!("{text} "));
        lines.push(format!("{text}\r"));
    }
    lines
}

/// Lines of more than 64 bytes. They start with a question, or end with one, some of them behind as many bytes as the program
/// reads at a time.
fn too_long() -> Vec<String> {
    let longest = good(LONGEST).remove(0);
    let short = "d 1 2162688";
    let mut lines = Vec::new();
    for tail in ["0", " ", "\r", "\0", "x"] {
        lines.push(format!("{longest}{tail}"));
    }
    for length in [65, 66, 127, 128, 129, 130, 256, 4096] {
        lines.push(format!("{longest:<length$}"));
        lines.push(format!("{short:<length$}"));
        lines.push(format!("{short:0<length$}"));
        lines.push(format!("{short: >length$}"));
        lines.push(format!("{short:x>length$}"));
    }
    let block = "x".repeat(BLOCK);
    lines.push(format!("{block}{short}"));
    lines.push(format!("{longest}{block}"));
    lines
}
