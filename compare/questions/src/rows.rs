//! Rows of columns in bytes, as document 01 has them, and the Rust's codecs asked about a row.

use crate::counts::{count, seconds_and_nanos};
use timeglyph::PackedCodec;

/// The bytes of a word.
pub const WORD: usize = 8;

/// The bytes of an instant: seconds, then nanoseconds.
pub const INSTANT: usize = SECONDS + 4;
const SECONDS: usize = 8;

pub fn word(row: &[u8]) -> i64 {
    i64::from_le_bytes(row.try_into().expect("8 bytes"))
}

pub fn instant(row: &[u8]) -> (i64, u32) {
    let (seconds, nanos) = row.split_at(SECONDS);
    let nanos = u32::from_le_bytes(nanos.try_into().expect("4 bytes"));
    (word(seconds), nanos)
}

pub fn put_word(row: &mut [u8], word: i64) {
    row.copy_from_slice(&word.to_le_bytes());
}

pub fn put_instant(row: &mut [u8], seconds: i64, nanos: u32) {
    row[..SECONDS].copy_from_slice(&seconds.to_le_bytes());
    row[SECONDS..].copy_from_slice(&nanos.to_le_bytes());
}

/// Has the Rust decode a row. Where it refuses, nothing is written.
#[inline]
pub fn decode(codec: &PackedCodec, read: &[u8], written: &mut [u8]) -> bool {
    let Ok(count) = (codec.decode)(word(read)) else {
        return false;
    };
    let (seconds, nanos) = seconds_and_nanos(&count);
    let seconds = i64::try_from(seconds).expect("64 bits hold the seconds of a word");
    put_instant(written, seconds, nanos);
    true
}

/// Has the Rust encode a row. Where it refuses, nothing is written.
#[inline]
pub fn encode(codec: &PackedCodec, read: &[u8], written: &mut [u8]) -> bool {
    let encode = codec.encode.expect("each of the sixteen encodes");
    let (seconds, nanos) = instant(read);
    let Ok(word) = encode(count(seconds, nanos.into())) else {
        return false;
    };
    put_word(written, word);
    true
}
