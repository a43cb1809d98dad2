//! The calls of libsleetrick.a, and their answers taken apart: crates/sleetrick/specs says what they promise. No other module
//! names them.

#![allow(unsafe_code, reason = "the calls are C's")]

use crate::{Refusal, INSTANT_BYTES, WORD_BYTES};

// A slice of Rattle's passes as its pointer, then its length.
extern "C" {
    fn sleetrick_decode(layout: u32, word: i64, instant: *mut u8, length: usize) -> u64;
    fn sleetrick_encode(layout: u32, seconds: i64, nanos: u32, word: *mut u8, length: usize)
        -> u64;
    fn sleetrick_filetime_hilo(low: u32, high: u32, instant: *mut u8, length: usize) -> u64;
    fn sleetrick_vmsd(high: i32, low: i32, instant: *mut u8, length: usize) -> u64;
    fn sleetrick_unix_sec_nsec(seconds: i64, nanos: u32, instant: *mut u8, length: usize) -> u64;
    fn sleetrick_oracle_date(
        stamp: *const u8,
        stamp_length: usize,
        instant: *mut u8,
        length: usize,
    ) -> u64;
    fn sleetrick_cp56time2a(
        stamp: *const u8,
        stamp_length: usize,
        instant: *mut u8,
        length: usize,
    ) -> u64;
    fn sleetrick_udf(stamp: *const u8, stamp_length: usize, instant: *mut u8, length: usize)
        -> u64;
    fn sleetrick_decode_column(
        layout: u32,
        words: *const u8,
        words_length: usize,
        instants: *mut u8,
        instants_length: usize,
    ) -> u64;
    fn sleetrick_encode_column(
        layout: u32,
        instants: *const u8,
        instants_length: usize,
        words: *mut u8,
        words_length: usize,
    ) -> u64;
}

// SAFETY, of every call below: each pointer goes with the length of the slice or the array that it is of, and what is written is
// lent to the call alone. A call reads and writes within them, keeps neither, and asks nothing else of its caller: it has no
// `requires`.

// ---- one value: its row, or the refusal

/// The bytes of an instant.
pub type InstantRow = [u8; INSTANT_BYTES];

/// The bytes of a word.
pub type WordRow = [u8; WORD_BYTES];

pub fn decode(layout: u32, word: i64) -> Result<InstantRow, Refusal> {
    written(|row, length| unsafe { sleetrick_decode(layout, word, row, length) })
}

pub fn encode(layout: u32, seconds: i64, nanos: u32) -> Result<WordRow, Refusal> {
    written(|row, length| unsafe { sleetrick_encode(layout, seconds, nanos, row, length) })
}

pub fn filetime_hilo(low: u32, high: u32) -> Result<InstantRow, Refusal> {
    written(|row, length| unsafe { sleetrick_filetime_hilo(low, high, row, length) })
}

pub fn vmsd(high: i32, low: i32) -> Result<InstantRow, Refusal> {
    written(|row, length| unsafe { sleetrick_vmsd(high, low, row, length) })
}

pub fn unix_sec_nsec(seconds: i64, nanos: u32) -> Result<InstantRow, Refusal> {
    written(|row, length| unsafe { sleetrick_unix_sec_nsec(seconds, nanos, row, length) })
}

pub fn oracle_date(stamp: &[u8]) -> Result<InstantRow, Refusal> {
    written(|row, length| unsafe {
        sleetrick_oracle_date(stamp.as_ptr(), stamp.len(), row, length)
    })
}

pub fn cp56time2a(stamp: &[u8]) -> Result<InstantRow, Refusal> {
    written(|row, length| unsafe { sleetrick_cp56time2a(stamp.as_ptr(), stamp.len(), row, length) })
}

pub fn udf(stamp: &[u8]) -> Result<InstantRow, Refusal> {
    written(|row, length| unsafe { sleetrick_udf(stamp.as_ptr(), stamp.len(), row, length) })
}

/// The row that a call writes where its number is 0; any other number has the refusal in its low 8 bits.
fn written<const BYTES: usize>(
    call: impl FnOnce(*mut u8, usize) -> u64,
) -> Result<[u8; BYTES], Refusal> {
    let mut row = [0; BYTES];
    match call(row.as_mut_ptr(), row.len()) {
        0 => Ok(row),
        number => Err(Refusal::told(number % 256)),
    }
}

// ---- columns: how many rows are done, and what stopped them

pub type Rows = (usize, Option<Refusal>);

pub fn decode_column(layout: u32, words: &[u8], instants: &mut [u8]) -> Rows {
    rows(unsafe {
        sleetrick_decode_column(
            layout,
            words.as_ptr(),
            words.len(),
            instants.as_mut_ptr(),
            instants.len(),
        )
    })
}

pub fn encode_column(layout: u32, instants: &[u8], words: &mut [u8]) -> Rows {
    rows(unsafe {
        sleetrick_encode_column(
            layout,
            instants.as_ptr(),
            instants.len(),
            words.as_mut_ptr(),
            words.len(),
        )
    })
}

/// A column's number is the rows times 16, plus the refusal, 0 for none.
fn rows(number: u64) -> Rows {
    let done = usize::try_from(number / 16).expect("a column has at most 1,048,576 rows");
    match number % 16 {
        0 => (done, None),
        refused => (done, Some(Refusal::told(refused))),
    }
}
