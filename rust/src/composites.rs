//! The six composite stamps.

use crate::row::Row;
use crate::{linked, Instant, Refusal};

/// A Windows FILETIME from its halves: ticks of 100 ns from 1601.
///
/// # Errors
///
/// [`Range`](crate::Reason::Range) where the top bit is set.
///
/// ```
/// use sleetrick::{filetime_hilo, Instant};
///
/// assert_eq!(filetime_hilo(0xD53E_8000, 0x019D_B1DE), Ok(Instant::at_second(0)));
/// ```
pub fn filetime_hilo(low: u32, high: u32) -> Result<Instant, Refusal> {
    linked::filetime_hilo(low, high).map(|row| Instant::get(&row))
}

/// A time of a snapshot file of `VMware` from its halves: microseconds from 1970, the low half read as unsigned.
///
/// # Errors
///
/// None today: every pair is an instant.
///
/// ```
/// use sleetrick::{vmsd, Instant};
///
/// assert_eq!(vmsd(-1, -1), Instant::new(-1, 999_999_000));
/// ```
pub fn vmsd(high: i32, low: i32) -> Result<Instant, Refusal> {
    linked::vmsd(high, low).map(|row| Instant::get(&row))
}

/// Seconds from 1970, and nanoseconds of up to four seconds, which carry.
///
/// # Errors
///
/// [`Carry`](crate::Reason::Carry) where the seconds do not fit 64 bits then.
///
/// ```
/// use sleetrick::{unix_sec_nsec, Instant};
///
/// assert_eq!(unix_sec_nsec(-1, 1_500_000_000), Instant::new(0, 500_000_000));
/// ```
pub fn unix_sec_nsec(seconds: i64, nanos: u32) -> Result<Instant, Refusal> {
    linked::unix_sec_nsec(seconds, nanos).map(|row| Instant::get(&row))
}

/// An Oracle `DATE`: seven bytes.
///
/// # Errors
///
/// [`Length`](crate::Reason::Length) where it has not seven bytes, then [`Fields`](crate::Reason::Fields).
///
/// ```
/// use sleetrick::{oracle_date, Instant, Reason};
///
/// assert_eq!(oracle_date(&[120, 100, 1, 1, 1, 1, 1]), Ok(Instant::at_second(946_684_800)));
/// assert_eq!(oracle_date(&[120, 100, 1, 1, 1, 1]).unwrap_err().reason(), Reason::Length);
/// ```
pub fn oracle_date(stamp: &[u8]) -> Result<Instant, Refusal> {
    linked::oracle_date(stamp).map(|row| Instant::get(&row))
}

/// A `CP56Time2a` of IEC 60870-5-4: seven bytes, whose flags are dropped.
///
/// # Errors
///
/// [`Length`](crate::Reason::Length) where it has not seven bytes, then [`Fields`](crate::Reason::Fields).
///
/// ```
/// use sleetrick::{cp56time2a, Instant, Reason};
///
/// assert_eq!(cp56time2a(&[0x5F, 0xEA, 0, 0, 1, 1, 0]), Instant::new(946_684_859, 999_000_000));
/// assert_eq!(cp56time2a(&[0x60, 0xEA, 0, 0, 1, 1, 0]).unwrap_err().reason(), Reason::Fields);
/// ```
pub fn cp56time2a(stamp: &[u8]) -> Result<Instant, Refusal> {
    linked::cp56time2a(stamp).map(|row| Instant::get(&row))
}

/// A UDF timestamp (ECMA-167 1/7.3): twelve bytes, with a zone.
///
/// # Errors
///
/// [`Length`](crate::Reason::Length) where it has not twelve bytes, then [`Fields`](crate::Reason::Fields).
///
/// ```
/// use sleetrick::{udf, Instant};
///
/// // 2000-01-01, with no zone told.
/// let stamp = [0x01, 0x08, 0xD0, 0x07, 1, 1, 0, 0, 0, 0, 0, 0];
/// assert_eq!(udf(&stamp), Ok(Instant::at_second(946_684_800)));
/// ```
pub fn udf(stamp: &[u8]) -> Result<Instant, Refusal> {
    linked::udf(stamp).map(|row| Instant::get(&row))
}
