//! Packed time stamps, decoded and encoded: words of sixteen layouts, six composite stamps, and columns of words and instants.
//!
//! A lift traffic simulator seeds each morning from its first landing call, which the controller stamps in a packed form.
//! An adapter once turned a refused stamp into instant zero: five weekdays drew one seed, and a tower was built with two
//! lifts too few. Here a refusal carries its reason and no instant:
//!
//! ```
//! # use std::collections::HashSet;
//! use sleetrick::{decode_words, Layout, Reason, Slot};
//!
//! // The first landing calls of 16 to 20 November 2026, Monday to Friday, as the controller packs them.
//! let calls = [1_793_093_250, 1_793_224_780, 1_793_355_496, 1_793_487_067, 1_793_617_523];
//! let mut room = [Slot::EMPTY; 5];
//!
//! // The site's settings name another layout. The old adapter had an instant for each row: zero, five times.
//! let wrong = decode_words(Layout::Bcd, &calls, &mut room);
//! assert_eq!(wrong.refusal().map(|refusal| refusal.reason()), Some(Reason::Fields));
//! assert!(wrong.results().is_empty());
//!
//! // With the right layout there are five mornings, and five seeds.
//! let mornings = decode_words(Layout::Dvr, &calls, &mut room).all()?;
//! let seeds: HashSet<i64> = mornings.iter().map(|call| call.seconds()).collect();
//! assert_eq!(seeds.len(), 5);
//! # Ok::<(), sleetrick::Stopped>(())
//! ```
//!
//! | function | from | to |
//! |---|---|---|
//! | [`decode`], [`encode`] | one word or [`Instant`], in a [`Layout`] | the other, or a [`Refusal`] |
//! | [`filetime_hilo`], [`vmsd`], [`unix_sec_nsec`] | two numbers | an [`Instant`], or a [`Refusal`] |
//! | [`oracle_date`], [`cp56time2a`], [`udf`] | the bytes of a stamp | an [`Instant`], or a [`Refusal`] |
//! | [`decode_words`], [`encode_instants`] | a slice of words or instants | [`Slot`]s, one for each |
//! | [`decode_column`], [`encode_column`] | a column in bytes | a column in bytes |
//!
//! The four functions on many rows answer [`Done`]: rows are done from the first until one is refused, and `Done` hands
//! out the results of the rows that are done, and nothing else. A column has at most [`MOST_ROWS`] rows.
//!
//! Nothing here allocates, keeps anything between calls, or panics on any input. The codecs are Rattle, proved for every input;
//! this package is Rust, and tested.

#![no_std]

mod bytes;
mod composites;
mod done;
mod instant;
mod layout;
mod linked;
mod refusal;
mod row;
mod slot;
mod typed;
mod words;

pub use bytes::{decode_column, encode_column, INSTANT_BYTES, WORD_BYTES};
pub use composites::{cp56time2a, filetime_hilo, oracle_date, udf, unix_sec_nsec, vmsd};
pub use done::{Done, Stopped};
pub use instant::Instant;
pub use layout::Layout;
pub use refusal::{Reason, Refusal};
pub use slot::Slot;
pub use typed::{decode_words, encode_instants};
pub use words::{decode, encode};

/// The most rows that a column may have; more are refused for [`Reason::Column`].
pub const MOST_ROWS: usize = 1_048_576;
