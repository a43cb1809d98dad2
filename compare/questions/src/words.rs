//! Questions on the sixteen words: `d LAYOUT WORD` and `e LAYOUT SECONDS NANOS` in the line program, `decode` and `encode` in
//! the program `replay`.

pub mod instant_boundaries;
pub mod layouts;
pub mod random;
pub mod word_boundaries;

use layouts::NUMBERS;
use std::fmt;

/// The layout number and the nanoseconds are as wide as a line's numbers, so that they need not be good.
#[derive(Clone, Copy, PartialEq, Eq, Hash)]
pub enum Question {
    Decode {
        layout: i64,
        word: i64,
    },
    Encode {
        layout: i64,
        seconds: i64,
        nanos: i64,
    },
}

impl fmt::Display for Question {
    fn fmt(&self, out: &mut fmt::Formatter) -> fmt::Result {
        match self {
            Question::Decode { layout, word } => write!(out, "d {layout} {word}"),
            Question::Encode {
                layout,
                seconds,
                nanos,
            } => write!(out, "e {layout} {seconds} {nanos}"),
        }
    }
}

impl Question {
    /// As the program `replay` is asked, where the line program has a letter.
    pub fn by_word(&self) -> String {
        match self {
            Question::Decode { layout, word } => format!("decode {layout} {word}"),
            Question::Encode {
                layout,
                seconds,
                nanos,
            } => format!("encode {layout} {seconds} {nanos}"),
        }
    }
}

pub fn decode(layout: i64, word: i64) -> Question {
    Question::Decode { layout, word }
}

pub fn encode(layout: i64, seconds: i64, nanos: i64) -> Question {
    Question::Encode {
        layout,
        seconds,
        nanos,
    }
}

/// The questions on each layout, in the order of the numbers.
pub fn each(questions: impl FnMut(i64) -> Vec<Question>) -> Vec<Question> {
    NUMBERS.flat_map(questions).collect()
}
