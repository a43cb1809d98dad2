//! The numbers of refusals, which the Rust's errors do not have: document 01's table, in its order. Where the Rust accepts
//! what these rules refuse, or refuses what they accept, the recorder stops. The rules, the first that holds:
//!
//! | | |
//! |---|---|
//! | no number | it is no question, or a number is outside its call's type; the Rust is not asked |
//! | 10 | a stamp has another length than its kind; the Rust, whose types have the length, is not asked |
//! | 2 | `filetime_hilo`: the top bit of the high half is set |
//! | 3 | a byte stamp: the Rust refuses it |
//! | 12 | `unix_sec_nsec`: 64 bits do not hold the seconds, the nanoseconds' whole seconds added; the Rust, whose count has 128, accepts |
//!
//! The Rust's error has to be of the right kind too: `Render` is jiff's own refusal, for 3, and `OutOfRange` is for 2.

use questions::composites::Question;
use questions::counts::seconds_and_nanos;
use questions::rust_side::composes;
use std::process;
use timeglyph::{ChronoError, PosixNs};

const RANGE: u8 = 2;
const FIELDS: u8 = 3;
const LENGTH: u8 = 10;
const CARRY: u8 = 12;

/// Why there is no instant.
pub enum Refused {
    Line,
    Number(u8),
}

/// The instant that a question is answered by, or why there is none.
pub fn answer(question: &Question) -> Result<PosixNs, Refused> {
    let Some(answer) = composes(question) else {
        return Err(match question {
            Question::Stamp { .. } => Refused::Number(LENGTH),
            _ => Refused::Line,
        });
    };
    match question {
        Question::Filetime { high, .. } => {
            agreed(question, (high >> 31 == 1).then_some(RANGE), answer)
        }
        Question::UnixSecNsec { seconds, nanos } => {
            carried(question, *seconds, *nanos, agreed(question, None, answer)?)
        }
        Question::Stamp { .. } => {
            let refuses = matches!(answer, Err(ChronoError::Render(_)));
            agreed(question, refuses.then_some(FIELDS), answer)
        }
        Question::Vmsd { .. } | Question::None(_) => agreed(question, None, answer),
    }
}

/// Seconds that 64 bits do not hold are the Rust's answer too; there its count is not held to the rule.
fn carried(
    question: &Question,
    seconds: i64,
    nanos: i64,
    answer: PosixNs,
) -> Result<PosixNs, Refused> {
    let held = i64::try_from(seconds_and_nanos(&answer).0).is_ok();
    let whole_seconds = nanos / 1_000_000_000;
    match (seconds.checked_add(whole_seconds).is_some(), held) {
        (true, true) => Ok(answer),
        (false, false) => Err(Refused::Number(CARRY)),
        (true, false) => stop(question, "accept it", "leaves 64 bits"),
        (false, true) => stop(question, "refuse it under 12", "stays in 64 bits"),
    }
}

/// The Rust's answer, or the number that the rules give. Stops where the two do not go together.
fn agreed(
    question: &Question,
    expected: Option<u8>,
    answer: Result<PosixNs, ChronoError>,
) -> Result<PosixNs, Refused> {
    let rust = match (expected, answer) {
        (None, Ok(count)) => return Ok(count),
        (Some(FIELDS), Err(ChronoError::Render(_))) => return Err(Refused::Number(FIELDS)),
        (Some(RANGE), Err(ChronoError::OutOfRange { .. })) => return Err(Refused::Number(RANGE)),
        (_, Ok(_)) => "accepts it".to_string(),
        (_, Err(ChronoError::Render(text))) => format!("refuses it (Render: {text})"),
        (_, Err(ChronoError::OutOfRange { what, value })) => {
            format!("refuses it (OutOfRange: {what}, {value})")
        }
    };
    match expected {
        None => stop(question, "accept it", &rust),
        Some(number) => stop(question, &format!("refuse it under {number}"), &rust),
    }
}

fn stop(question: &Question, rules: &str, rust: &str) -> ! {
    eprintln!("record: {question}: the rules {rules}, the Rust {rust}; no list was written");
    process::exit(1)
}
