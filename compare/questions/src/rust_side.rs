//! The Rust's own codecs, asked.

use crate::composites::{typed, Question, Written};
use crate::counts::count;
use timeglyph::{codec, compose, ChronoError, PosixNs};

/// What the Rust makes of a word, in a layout of 1 to 16.
pub fn decodes(layout: i64, word: i64) -> Result<PosixNs, ChronoError> {
    (codec(layout).decode)(word)
}

/// What the Rust makes of an instant, in a layout of 1 to 16.
pub fn encodes(layout: i64, seconds: i64, nanos: i64) -> Result<i64, ChronoError> {
    let encode = codec(layout).encode.expect("each of the sixteen encodes");
    encode(count(seconds, nanos))
}

/// What the Rust makes of a composite; nothing where its types can't be given the question.
pub fn composes(question: &Question) -> Option<Result<PosixNs, ChronoError>> {
    Some(match question {
        Question::Filetime { low, high } => compose::filetime_hilo(typed(*low)?, typed(*high)?),
        Question::Vmsd { high, low } => Ok(compose::vmsd(typed(*high)?, typed(*low)?)),
        Question::UnixSecNsec { seconds, nanos } => {
            Ok(compose::unix_sec_nsec(*seconds, typed(*nanos)?))
        }
        Question::Stamp { written, bytes } => match written {
            Written::Oracle => compose::oracle_date(stamp(bytes)?),
            Written::Cp56 => compose::cp56time2a(stamp(bytes)?),
            Written::Udf => compose::udf(stamp(bytes)?),
        },
        Question::None(_) => return None,
    })
}

/// A stamp of its kind's length.
fn stamp<const LENGTH: usize>(bytes: &[u8]) -> Option<[u8; LENGTH]> {
    bytes.try_into().ok()
}
