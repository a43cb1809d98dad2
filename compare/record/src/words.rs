//! The list of the sixteen words, for the line program. A question is `d LAYOUT WORD`, answered by `SECONDS NANOS`, or
//! `e LAYOUT SECONDS NANOS`, answered by the word; a refusal is `refused N`, and a line that asks nothing is answered by
//! `bad line`. Document 01's stamps are in the list of the program `replay` too, which asks by words.
//!
//! Its last line lacks its LF.
//!
//! The answers are those of the codecs in timeglyph's own src/registry.rs. Its errors have no numbers: `rules` has them.

mod bad_lines;
mod long_lines;
mod random;
mod rules;
mod stamps;

use crate::lists::{self, bad_line, part, Line, List, Part};
use questions::counts::instant;
use questions::once;
use questions::splitmix::SplitMix;
use questions::words::{each, instant_boundaries, word_boundaries, Question};

const STAMPS: &str = "stamps of document 01";

pub fn list() -> List {
    List {
        seeds: vec![random::SEED],
        parts: parts(),
        ends_in_lf: false,
    }
}

fn parts() -> Vec<Part> {
    let mut numbers = SplitMix::new(random::SEED);
    let mut parts = vec![
        example(),
        lists::stamps(STAMPS, stamps::stamps(), line),
        part("numbers outside", word_boundaries::numbers_outside(), line),
        part(
            "boundaries of words",
            once(each(word_boundaries::questions)),
            line,
        ),
        part(
            "boundaries of instants",
            once(each(instant_boundaries::questions)),
            line,
        ),
        part("good words", each(|n| random::good(n, &mut numbers)), line),
        part(
            "damaged words",
            each(|n| random::damaged(n, &mut numbers)),
            line,
        ),
        part(
            "instants",
            each(|n| random::instants(n, &mut numbers)),
            line,
        ),
        bad_lines::part(),
    ];
    parts.extend(long_lines::parts());
    parts.push(lists::last_line(lists::stamps(
        STAMPS,
        stamps::stamps(),
        line,
    )));
    parts
}

/// Document 01's whole example of the line program, its last line too, which asks nothing.
fn example() -> Part {
    let mut example = lists::stamps("example of document 01", stamps::example(), line);
    example.lines.push(bad_line("x".to_string()));
    example
}

/// For the program `replay`.
pub fn parts_by_word() -> Vec<Part> {
    vec![
        stamps_by_word(),
        part(
            "words, numbers outside",
            word_boundaries::numbers_outside(),
            line_by_word,
        ),
    ]
}

pub fn stamps_by_word() -> Part {
    lists::stamps(
        "words, stamps of document 01",
        stamps::stamps(),
        line_by_word,
    )
}

pub fn line_by_word(question: &Question) -> Line {
    Line {
        question: question.by_word(),
        ..line(question)
    }
}

fn line(question: &Question) -> Line {
    let answer = match *question {
        Question::Decode { layout, word } => {
            rules::decoding(layout, word).map(|count| instant(&count))
        }
        Question::Encode {
            layout,
            seconds,
            nanos,
        } => rules::encoding(layout, seconds, nanos).map(|word| word.to_string()),
    };
    Line {
        question: question.to_string(),
        answer: answer.unwrap_or_else(|number| format!("refused {number}")),
    }
}
