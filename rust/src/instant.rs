//! An instant.

use crate::refusal::{Reason, Refusal};

/// Seconds since 1970-01-01 UTC, and nanoseconds counted forwards from there; seconds before 1970 are negative.
///
/// Equality and order are those of time: the seconds decide, and then the nanoseconds.
///
/// ```
/// use sleetrick::{Instant, Reason};
///
/// // Half a second before 1970.
/// let instant = Instant::new(-1, 500_000_000)?;
/// assert!(instant < Instant::at_second(0));
/// assert_eq!(Instant::new(0, 1_000_000_000).unwrap_err().reason(), Reason::Nanos);
/// # Ok::<(), sleetrick::Refusal>(())
/// ```
///
/// There is no default instant, and so this, the old adapter's mistake, does not compile:
///
/// ```compile_fail,E0277
/// # use sleetrick::{decode, Layout};
/// let call = decode(Layout::FatDos, 2_162_718).unwrap_or_default();
/// ```
#[derive(Clone, Copy, Debug, PartialEq, Eq, PartialOrd, Ord, Hash)]
pub struct Instant {
    // The derived order is that of time: seconds first.
    seconds: i64,
    nanos: u32,
}

impl Instant {
    /// The instant of seconds and nanoseconds.
    ///
    /// # Errors
    ///
    /// [`Reason::Nanos`] where the nanoseconds are above 999,999,999.
    pub const fn new(seconds: i64, nanos: u32) -> Result<Instant, Refusal> {
        match nanos {
            0..=999_999_999 => Ok(Instant { seconds, nanos }),
            _ => Err(Refusal::new(Reason::Nanos)),
        }
    }

    /// The instant of a whole second.
    #[must_use]
    pub const fn at_second(seconds: i64) -> Instant {
        Instant { seconds, nanos: 0 }
    }

    /// An instant that the library wrote: its nanoseconds are good.
    pub(crate) const fn decoded(seconds: i64, nanos: u32) -> Instant {
        Instant { seconds, nanos }
    }

    /// Seconds since 1970-01-01 UTC, rounded down.
    #[must_use]
    pub const fn seconds(self) -> i64 {
        self.seconds
    }

    /// Nanoseconds of the second, at most 999,999,999.
    #[must_use]
    pub const fn nanos(self) -> u32 {
        self.nanos
    }
}
