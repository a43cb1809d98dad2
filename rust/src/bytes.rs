//! Columns in bytes.

use crate::{linked, Done, Layout};

/// The bytes of a word in a column: two's complement, low byte first.
pub const WORD_BYTES: usize = 8;

/// The bytes of an instant in a column: seconds in 8, two's complement, then nanoseconds in 4, both low byte first.
pub const INSTANT_BYTES: usize = 12;

/// A function from a column in bytes to another: one of the two below.
pub(crate) type Column = for<'a> fn(Layout, &[u8], &'a mut [u8]) -> Done<'a, u8>;

/// Decodes a column of words to a column of instants.
///
/// Refused as a whole, with no row done: for [`Rows`](crate::Reason::Rows) where `words` is not whole rows of [`WORD_BYTES`] or
/// `instants` not exactly as many of [`INSTANT_BYTES`], then for [`Column`](crate::Reason::Column). A row is refused as
/// [`decode`](crate::decode) says. Bytes of rows that are not done stay as they were.
///
/// ```
/// use sleetrick::{decode_column, Layout, Reason};
///
/// let words = [2_162_688_i64.to_le_bytes(), 2_162_718_i64.to_le_bytes()].concat();
/// let mut instants = [0xAA; 24];
/// let done = decode_column(Layout::FatDos, &words, &mut instants);
/// assert_eq!(done.results()[..8], 315_532_800_i64.to_le_bytes());
/// assert_eq!(done.results()[8..], [0; 4]);
/// assert_eq!(done.refusal().map(|refusal| refusal.reason()), Some(Reason::Fields));
/// assert_eq!(instants[12..], [0xAA; 12]);
/// ```
pub fn decode_column<'a>(layout: Layout, words: &[u8], instants: &'a mut [u8]) -> Done<'a, u8> {
    let (rows, refusal) = linked::decode_column(layout.number(), words, instants);
    Done::new(rows, refusal, &instants[..rows * INSTANT_BYTES])
}

/// Encodes a column of instants to a column of words.
///
/// Refused as a whole, with no row done: for [`Rows`](crate::Reason::Rows) where `instants` is not whole rows of
/// [`INSTANT_BYTES`] or `words` not exactly as many of [`WORD_BYTES`], then for [`Column`](crate::Reason::Column). A row is
/// refused for [`Nanos`](crate::Reason::Nanos), and then as [`encode`](crate::encode) says. Bytes of rows that are not done stay
/// as they were.
///
/// ```
/// use sleetrick::{encode_column, Layout};
///
/// let mut instants = [0; 12];
/// instants[..8].copy_from_slice(&315_532_800_i64.to_le_bytes());
/// let mut words = [0; 8];
/// let done = encode_column(Layout::FatDos, &instants, &mut words);
/// assert_eq!(done.all()?, 2_162_688_i64.to_le_bytes());
/// # Ok::<(), sleetrick::Stopped>(())
/// ```
pub fn encode_column<'a>(layout: Layout, instants: &[u8], words: &'a mut [u8]) -> Done<'a, u8> {
    let (rows, refusal) = linked::encode_column(layout.number(), instants, words);
    Done::new(rows, refusal, &words[..rows * WORD_BYTES])
}
