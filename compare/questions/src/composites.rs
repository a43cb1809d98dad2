//! Questions on the composites, as the program `replay` is asked: a word and two numbers, or a word and a stamp, whose bytes
//! are pairs of lower-case hex digits, and `-` where there are none.
//!
//! | question | asks |
//! |---|---|
//! | `filetime LOW HIGH` | `filetime_hilo`, of two u32 |
//! | `vmsd HIGH LOW` | `vmsd`, of two i32 |
//! | `unix SECONDS NANOS` | `unix_sec_nsec`, of an i64 and a u32 |
//! | `oracle HEX` | `oracle_date` |
//! | `cp56 HEX` | `cp56time2a` |
//! | `udf HEX` | `udf` |

pub mod number_boundaries;
pub mod random;
pub mod stamp_boundaries;
mod written;

pub use written::Written;

use std::fmt;

/// Numbers are as wide as a line's, and a stamp has any length, so that they need not be good.
#[derive(Clone, PartialEq, Eq, Hash)]
pub enum Question {
    Filetime { low: i64, high: i64 },
    Vmsd { high: i64, low: i64 },
    UnixSecNsec { seconds: i64, nanos: i64 },
    Stamp { written: Written, bytes: Vec<u8> },
    None(String),
}

impl fmt::Display for Question {
    fn fmt(&self, out: &mut fmt::Formatter) -> fmt::Result {
        match self {
            Question::Filetime { low, high } => write!(out, "filetime {low} {high}"),
            Question::Vmsd { high, low } => write!(out, "vmsd {high} {low}"),
            Question::UnixSecNsec { seconds, nanos } => write!(out, "unix {seconds} {nanos}"),
            Question::Stamp { written, bytes } if bytes.is_empty() => {
                write!(out, "{} -", written.word())
            }
            Question::Stamp { written, bytes } => {
                write!(out, "{} ", written.word())?;
                bytes.iter().try_for_each(|byte| write!(out, "{byte:02x}"))
            }
            Question::None(text) => write!(out, "{text}"),
        }
    }
}

/// A number in its call's type, if it has one.
pub fn typed<T: TryFrom<i64>>(number: i64) -> Option<T> {
    T::try_from(number).ok()
}

pub fn filetime(low: i64, high: i64) -> Question {
    Question::Filetime { low, high }
}

pub fn vmsd(high: i64, low: i64) -> Question {
    Question::Vmsd { high, low }
}

pub fn unix_sec_nsec(seconds: i64, nanos: i64) -> Question {
    Question::UnixSecNsec { seconds, nanos }
}

pub fn stamp(written: Written, bytes: &[u8]) -> Question {
    Question::Stamp {
        written,
        bytes: bytes.to_vec(),
    }
}

/// The questions on each kind of byte stamp.
pub fn each(questions: impl FnMut(Written) -> Vec<Question>) -> Vec<Question> {
    Written::ALL.into_iter().flat_map(questions).collect()
}
