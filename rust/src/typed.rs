//! Columns of words and instants in memory. They go through the columns in bytes a block at a time, on the stack, and give
//! the answers of one column.

use crate::bytes::Column;
use crate::row::{Row, MOST_BYTES};
use crate::slot::Filling;
use crate::{
    decode_column, encode_column, Done, Instant, Layout, Reason, Refusal, Slot, MOST_ROWS,
};

/// The rows of a block.
const BLOCK: usize = 256;

/// Decodes words to instants, a slot for each.
///
/// Refused as a whole, with no row done: for [`Reason::Rows`] where there are not as many slots as words, then for
/// [`Reason::Column`]. A word is refused as [`decode`](crate::decode) says.
///
/// ```
/// use sleetrick::{decode_words, Instant, Layout, Reason, Slot};
///
/// let mut room = [Slot::EMPTY; 3];
/// let done = decode_words(Layout::FatDos, &[2_162_688, 2_162_718, 2_162_717], &mut room);
/// assert_eq!(done.results(), [Instant::at_second(315_532_800)]);
/// let stopped = done.all().unwrap_err();
/// assert_eq!((stopped.rows(), stopped.refusal().reason()), (1, Reason::Fields));
/// ```
pub fn decode_words<'a>(
    layout: Layout,
    words: &[i64],
    instants: &'a mut [Slot<Instant>],
) -> Done<'a, Instant> {
    by_blocks(decode_column, layout, words, instants)
}

/// Encodes instants to words, a slot for each.
///
/// Refused as a whole, with no row done: for [`Reason::Rows`] where there are not as many slots as instants, then for
/// [`Reason::Column`]. An instant is refused as [`encode`](crate::encode) says.
///
/// ```
/// use sleetrick::{encode_instants, Instant, Layout, Slot};
///
/// let mut room = [Slot::EMPTY; 1];
/// let words = encode_instants(Layout::FatDos, &[Instant::at_second(315_532_859)], &mut room).all()?;
/// assert_eq!(words, [2_162_717]);
/// # Ok::<(), sleetrick::Stopped>(())
/// ```
pub fn encode_instants<'a>(
    layout: Layout,
    instants: &[Instant],
    words: &'a mut [Slot<i64>],
) -> Done<'a, i64> {
    by_blocks(encode_column, layout, instants, words)
}

fn by_blocks<'a, In: Row, Out: Row>(
    column: Column,
    layout: Layout,
    input: &[In],
    output: &'a mut [Slot<Out>],
) -> Done<'a, Out> {
    let refused = refused_whole(input.len(), output.len());
    let mut filling = Filling::new(output);
    let refusal = refused.or_else(|| fill(column, layout, input, &mut filling));
    let results = filling.results();
    Done::new(results.len(), refusal, results)
}

/// What refuses the column before its first row, in the order of a column in bytes.
fn refused_whole(rows: usize, slots: usize) -> Option<Refusal> {
    if rows != slots {
        return Some(Refusal::new(Reason::Rows));
    }
    (rows > MOST_ROWS).then(|| Refusal::new(Reason::Column))
}

/// Does the rows, until one is refused.
fn fill<In: Row, Out: Row>(
    column: Column,
    layout: Layout,
    input: &[In],
    filling: &mut Filling<Out>,
) -> Option<Refusal> {
    let mut read = [0; BLOCK * MOST_BYTES];
    let mut written = [0; BLOCK * MOST_BYTES];
    for block in input.chunks(BLOCK) {
        let read = &mut read[..block.len() * In::BYTES];
        let written = &mut written[..block.len() * Out::BYTES];
        for (row, value) in read.chunks_exact_mut(In::BYTES).zip(block) {
            value.put(row);
        }
        let done = column(layout, read, written);
        for row in done.results().chunks_exact(Out::BYTES) {
            filling.push(Out::get(row));
        }
        if done.refusal().is_some() {
            return done.refusal();
        }
    }
    None
}
