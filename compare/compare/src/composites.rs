//! The six composites: the Rust, and this library through its package.

use crate::guarded::guarded;
use crate::known::NO_CARRY;
use crate::outcome::Outcome;
use crate::part::Part;
use questions::composites::{typed, Question, Written};
use questions::counts::seconds_and_nanos;
use questions::rust_side::composes;
use sleetrick::{cp56time2a, filetime_hilo, oracle_date, udf, unix_sec_nsec, vmsd};
use sleetrick::{Instant, Refusal};
use std::fmt;

/// Compares the questions that both sides can be asked.
pub fn compare(questions: &[Question], part: &mut Part) {
    for question in questions {
        if let (Some(rust), Some(ours)) = (rust(question), ours(question)) {
            part.count(outcome(rust, ours), || question.to_string());
        }
    }
}

#[derive(Clone, Copy, PartialEq, Eq)]
enum Answer {
    /// Seconds, which may be more than 64 bits hold, and nanoseconds.
    Instant(i128, u32),
    /// By the number, which the Rust's refusals do not have.
    Refused(Option<u32>),
    Panics,
}

impl fmt::Display for Answer {
    fn fmt(&self, out: &mut fmt::Formatter) -> fmt::Result {
        match self {
            Answer::Instant(seconds, nanos) => write!(out, "{seconds} {nanos}"),
            Answer::Refused(None) => write!(out, "refused"),
            Answer::Refused(Some(number)) => write!(out, "refused {number}"),
            Answer::Panics => write!(out, "panics"),
        }
    }
}

/// Nothing where the Rust's types can't be given the question.
fn rust(question: &Question) -> Option<Answer> {
    let Some(answer) = guarded(|| composes(question)) else {
        return Some(Answer::Panics);
    };
    Some(match answer? {
        Ok(count) => {
            let (seconds, nanos) = seconds_and_nanos(&count);
            Answer::Instant(seconds, nanos)
        }
        Err(_) => Answer::Refused(None),
    })
}

/// Nothing where the package's types can't be given the question.
fn ours(question: &Question) -> Option<Answer> {
    let Some(answer) = guarded(|| ask(question)) else {
        return Some(Answer::Panics);
    };
    Some(match answer? {
        Ok(instant) => Answer::Instant(instant.seconds().into(), instant.nanos()),
        Err(refusal) => Answer::Refused(Some(refusal.number())),
    })
}

fn ask(question: &Question) -> Option<Result<Instant, Refusal>> {
    Some(match question {
        Question::Filetime { low, high } => filetime_hilo(typed(*low)?, typed(*high)?),
        Question::Vmsd { high, low } => vmsd(typed(*high)?, typed(*low)?),
        Question::UnixSecNsec { seconds, nanos } => unix_sec_nsec(*seconds, typed(*nanos)?),
        Question::Stamp { written, bytes } => match written {
            Written::Oracle => oracle_date(bytes),
            Written::Cp56 => cp56time2a(bytes),
            Written::Udf => udf(bytes),
        },
        Question::None(_) => return None,
    })
}

fn outcome(rust: Answer, ours: Answer) -> Outcome {
    let known = match (rust, ours) {
        (Answer::Instant(..), Answer::Instant(..)) if rust == ours => return Outcome::Answered,
        (Answer::Refused(_), Answer::Refused(_)) => return Outcome::Refused,
        (Answer::Instant(seconds, _), Answer::Refused(Some(12)))
            if i64::try_from(seconds).is_err() =>
        {
            Some(NO_CARRY)
        }
        _ => None,
    };
    Outcome::Differs {
        known,
        rust: rust.to_string(),
        ours: ours.to_string(),
    }
}
