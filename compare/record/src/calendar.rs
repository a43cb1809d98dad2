//! The calendar's questions, for the list of the program `replay`. A civil time is answered by the seconds since 1970 or by
//! `refused 3`, and seconds by the six fields or by `refused 6`. All times are UTC. Each is asked of both engines:
//! `seconds YEAR MONTH DAY HOUR MINUTE SECOND` and `fields SECONDS` of the one, `walk-seconds` and `walk-fields` of the other.
//!
//! jiff is asked through the calls that the Rust's `packed_civil` and `civil_fields` make.

mod boundaries;
mod random;

pub use random::SEED;

use crate::lists::{Line, Part};
use jiff::civil::DateTime;
use jiff::tz::TimeZone;
use questions::calendar::{fields_of, Fields};
use questions::counts::NANOSECONDS_PER_SECOND;
use questions::splitmix::SplitMix;

const FIELDS_NOT_GOOD: &str = "refused 3";
const OUTSIDE_WINDOW: &str = "refused 6";

/// What the words that ask the engines begin with.
const ENGINES: [&str; 2] = ["", "walk-"];

pub enum Question {
    Fields(Fields),
    Seconds(i64),
}

pub fn parts() -> Vec<Part> {
    let mut numbers = SplitMix::new(SEED);
    vec![
        part("calendar, boundaries", boundaries::questions()),
        part("calendar, random seconds", random::seconds(&mut numbers)),
        part("calendar, random fields", random::fields(&mut numbers)),
    ]
}

fn part(name: &'static str, questions: Vec<Question>) -> Part {
    Part {
        name,
        lines: questions.iter().flat_map(lines).collect(),
    }
}

/// A line for each engine.
fn lines(question: &Question) -> [Line; 2] {
    let (asked, answer) = match question {
        Question::Fields(fields) => (
            format!("seconds {fields}"),
            match seconds_of(fields) {
                Some(seconds) => seconds.to_string(),
                None => FIELDS_NOT_GOOD.to_string(),
            },
        ),
        Question::Seconds(seconds) => (
            format!("fields {seconds}"),
            match fields_of(*seconds) {
                Some(fields) => fields.to_string(),
                None => OUTSIDE_WINDOW.to_string(),
            },
        ),
    };
    ENGINES.map(|engine| Line {
        question: format!("{engine}{asked}"),
        answer: answer.clone(),
    })
}

/// The Rust's `packed_civil`. Fields that jiff's own types can't hold are not good fields.
fn seconds_of(fields: &Fields) -> Option<i64> {
    let date_time = DateTime::new(
        fields.year.try_into().ok()?,
        fields.month.try_into().ok()?,
        fields.day.try_into().ok()?,
        fields.hour.try_into().ok()?,
        fields.minute.try_into().ok()?,
        fields.second.try_into().ok()?,
        0,
    );
    let timestamp = date_time.ok()?.to_zoned(TimeZone::UTC).ok()?.timestamp();
    let seconds = timestamp.as_nanosecond() / NANOSECONDS_PER_SECOND;
    Some(i64::try_from(seconds).expect("jiff's window fits 64 bits"))
}
