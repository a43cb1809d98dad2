//! What stands in a row of a column, as bytes.

use crate::{Instant, INSTANT_BYTES, WORD_BYTES};

/// The bytes of the longest row.
pub const MOST_BYTES: usize = INSTANT_BYTES;

pub trait Row: Copy {
    /// The bytes of a row.
    const BYTES: usize;

    /// Writes a row of so many bytes.
    fn put(self, row: &mut [u8]);

    /// Reads a row of so many bytes.
    fn get(row: &[u8]) -> Self;
}

impl Row for i64 {
    const BYTES: usize = WORD_BYTES;

    fn put(self, row: &mut [u8]) {
        row.copy_from_slice(&self.to_le_bytes());
    }

    fn get(row: &[u8]) -> i64 {
        i64::from_le_bytes(row.try_into().expect("a word has 8 bytes"))
    }
}

impl Row for Instant {
    const BYTES: usize = INSTANT_BYTES;

    fn put(self, row: &mut [u8]) {
        let (seconds, nanos) = row.split_at_mut(8);
        seconds.copy_from_slice(&self.seconds().to_le_bytes());
        nanos.copy_from_slice(&self.nanos().to_le_bytes());
    }

    fn get(row: &[u8]) -> Instant {
        let (seconds, nanos) = row.split_at(8);
        Instant::decoded(
            i64::from_le_bytes(seconds.try_into().expect("seconds have 8 bytes")),
            u32::from_le_bytes(nanos.try_into().expect("nanoseconds have 4 bytes")),
        )
    }
}
