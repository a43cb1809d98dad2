//! An instant as the Rust has it, one count of nanoseconds since 1970, and as this project has it: floor division takes the
//! count apart.

use timeglyph::PosixNs;

pub const NANOSECONDS_PER_SECOND: i128 = 1_000_000_000;

/// Nanoseconds since 1970.
#[inline]
pub fn count(seconds: i64, nanos: i64) -> PosixNs {
    PosixNs(i128::from(seconds) * NANOSECONDS_PER_SECOND + i128::from(nanos))
}

/// The seconds of a count, cut downwards, and the nanoseconds that are left.
#[inline]
pub fn seconds_and_nanos(count: &PosixNs) -> (i128, u32) {
    let seconds = count.0.div_euclid(NANOSECONDS_PER_SECOND);
    let nanos = count.0.rem_euclid(NANOSECONDS_PER_SECOND);
    (seconds, nanos as u32)
}

/// A count as `SECONDS NANOS`.
pub fn instant(count: &PosixNs) -> String {
    let (seconds, nanos) = seconds_and_nanos(count);
    format!("{seconds} {nanos}")
}
