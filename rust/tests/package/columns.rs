//! What the tests make columns of, what they expect of one that is stopped, and the calls by the reasons of their refusals.

use sleetrick::{Done, Instant, Layout, Reason, Refusal};

/// A function from a column in bytes to another.
pub type Column = for<'a> fn(Layout, &[u8], &'a mut [u8]) -> Done<'a, u8>;

/// A word that is good in layout 1, and its seconds.
pub const GOOD_WORD: i64 = 2_162_688;
pub const ITS_SECONDS: i64 = 315_532_800;

/// An instant of 2026, which every layout has room for.
pub const GOOD_INSTANT: Instant = at(1_794_812_282);

/// The instant of a whole second.
pub const fn at(seconds: i64) -> Instant {
    Instant::at_second(seconds)
}

pub fn instant(seconds: i64, nanos: u32) -> Instant {
    Instant::new(seconds, nanos).expect("good nanoseconds")
}

pub fn decode(layout: Layout, word: i64) -> Result<Instant, Reason> {
    sleetrick::decode(layout, word).map_err(Refusal::reason)
}

pub fn encode(layout: Layout, instant: Instant) -> Result<i64, Reason> {
    sleetrick::encode(layout, instant).map_err(Refusal::reason)
}

/// The reason that stopped a column.
pub fn reason<T>(done: &Done<T>) -> Option<Reason> {
    done.refusal().map(Refusal::reason)
}

/// What `all` says of a column that is stopped: the rows that are done, and the reason.
pub fn why<T>(done: Done<T>) -> Option<(usize, Reason)> {
    let stopped = done.all().err()?;
    Some((stopped.rows(), stopped.refusal().reason()))
}

/// The same, as it is expected.
#[allow(clippy::unnecessary_wraps, reason = "it is compared with `why`")]
pub fn stopped(rows: usize, reason: Reason) -> Option<(usize, Reason)> {
    Some((rows, reason))
}

pub fn word_bytes(words: &[i64]) -> Vec<u8> {
    words.iter().flat_map(|word| word.to_le_bytes()).collect()
}

pub fn instant_bytes(instants: &[Instant]) -> Vec<u8> {
    instants
        .iter()
        .flat_map(|instant| row(instant.seconds(), instant.nanos()))
        .collect()
}

/// The row of an instant, whose nanoseconds need not be good.
pub fn row(seconds: i64, nanos: u32) -> [u8; 12] {
    let mut row = [0; 12];
    row[..8].copy_from_slice(&seconds.to_le_bytes());
    row[8..].copy_from_slice(&nanos.to_le_bytes());
    row
}
