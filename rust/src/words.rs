//! One word or one instant.

use crate::row::Row;
use crate::{linked, Instant, Layout, Refusal};

/// The instant that a word says in a layout.
///
/// # Errors
///
/// [`Range`](crate::Reason::Range), [`Fields`](crate::Reason::Fields), [`Zone`](crate::Reason::Zone) or
/// [`Ticks`](crate::Reason::Ticks); if several apply, you get the first.
///
/// ```
/// use sleetrick::{decode, Instant, Layout, Reason};
///
/// assert_eq!(decode(Layout::FatDos, 2_162_717), Ok(Instant::at_second(315_532_858)));
/// assert_eq!(decode(Layout::FatDos, 2_162_718).unwrap_err().reason(), Reason::Fields);
/// ```
pub fn decode(layout: Layout, word: i64) -> Result<Instant, Refusal> {
    linked::decode(layout.number(), word).map(|row| Instant::get(&row))
}

/// The word of an instant in a layout.
///
/// # Errors
///
/// [`Window`](crate::Reason::Window), [`Year`](crate::Reason::Year) or [`Count`](crate::Reason::Count); if several apply, you
/// get the first.
///
/// ```
/// use sleetrick::{encode, Instant, Layout, Reason};
///
/// assert_eq!(encode(Layout::NokiaLe, Instant::at_second(2_524_608_000)), Ok(4_294_967_295));
/// let late = encode(Layout::NokiaLe, Instant::at_second(2_524_608_001));
/// assert_eq!(late.unwrap_err().reason(), Reason::Count);
/// ```
pub fn encode(layout: Layout, instant: Instant) -> Result<i64, Refusal> {
    linked::encode(layout.number(), instant.seconds(), instant.nanos()).map(|row| i64::get(&row))
}
