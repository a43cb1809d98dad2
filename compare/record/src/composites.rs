//! The composites, for the list of the program `replay`: questions as `questions::composites` has them, each answered by
//! `SECONDS NANOS` or by `refused N`. A number that its call's type can't hold asks nothing, and is answered by `bad line`.
//!
//! The answers are those of timeglyph's own src/compose.rs. Its errors have no numbers: `rules` has them.

mod random;
mod rules;
mod stamps;

pub use random::SEED;

use crate::lists::{self, bad_line, part, Line, Part};
use questions::composites::{each, number_boundaries, stamp_boundaries, Question};
use questions::counts::instant;
use questions::once;
use questions::splitmix::SplitMix;
use rules::Refused;

pub fn parts() -> Vec<Part> {
    let mut numbers = SplitMix::new(SEED);
    vec![
        lists::stamps("composites, stamps of document 01", stamps::stamps(), line),
        part(
            "composites, boundaries of numbers",
            once(number_boundaries::questions()),
            line,
        ),
        part(
            "composites, boundaries of stamps",
            once(each(stamp_boundaries::questions)),
            line,
        ),
        part(
            "composites, random numbers",
            random::numbers(&mut numbers),
            line,
        ),
        part(
            "composites, good stamps",
            each(|w| random::good(w, &mut numbers)),
            line,
        ),
        part(
            "composites, damaged stamps",
            each(|w| random::damaged(w, &mut numbers)),
            line,
        ),
    ]
}

pub fn line(question: &Question) -> Line {
    let question_text = question.to_string();
    let answer = match rules::answer(question) {
        Ok(count) => instant(&count),
        Err(Refused::Number(number)) => format!("refused {number}"),
        Err(Refused::Line) => return bad_line(question_text),
    };
    Line {
        question: question_text,
        answer,
    }
}
