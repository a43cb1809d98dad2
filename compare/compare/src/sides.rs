//! What each side makes of the rows of a block, row by row.

use crate::direction::Direction;
use crate::guarded::guarded;
use timeglyph::codec;

/// What stands in a row before it is written. A row that is not done keeps it.
pub const FILL: u8 = 0xA5;

#[derive(Clone, Copy, PartialEq, Eq)]
pub enum Verdict {
    Done,
    /// The Rust's refusals have no number: 0.
    Refused(u8),
    /// Neither done nor refused.
    Skipped,
    Panics,
}

/// A side's verdicts, and the rows that it wrote.
pub struct Side {
    pub verdicts: Vec<Verdict>,
    pub written: Vec<u8>,
}

impl Side {
    fn new(direction: Direction, rows: usize) -> Side {
        Side {
            verdicts: vec![Verdict::Skipped; rows],
            written: vec![FILL; rows * direction.written()],
        }
    }
}

/// The Rust's, asked about one row after the other.
pub fn rust(direction: Direction, layout: u32, read: &[u8]) -> Side {
    let codec = codec(layout.into());
    let rows = read.len() / direction.read();
    let mut side = Side::new(direction, rows);
    let mut row = 0;
    while row < rows {
        let all_asked = guarded(|| {
            let asked = read.chunks_exact(direction.read()).skip(row);
            let written = side.written.chunks_exact_mut(direction.written()).skip(row);
            for (read, written) in asked.zip(written) {
                side.verdicts[row] = match direction.rust(codec, read, written) {
                    true => Verdict::Done,
                    false => Verdict::Refused(0),
                };
                row += 1;
            }
        });
        if all_asked.is_none() {
            side.verdicts[row] = Verdict::Panics;
            row += 1;
        }
    }
    side
}

/// This library's, by columns: one of all rows, and where one is refused, a column of those behind it.
pub fn ours(direction: Direction, layout: u32, read: &[u8]) -> Side {
    let rows = read.len() / direction.read();
    let mut side = Side::new(direction, rows);
    let mut row = 0;
    while row < rows {
        let read = &read[row * direction.read()..];
        let written = &mut side.written[row * direction.written()..];
        let answer = guarded(|| {
            let done = direction.ours(layout, read, written);
            (done.rows(), done.refusal())
        });
        let Some((done, refusal)) = answer else {
            // Of such a column nothing can be told.
            side.verdicts[row..].fill(Verdict::Panics);
            break;
        };
        side.verdicts[row..row + done].fill(Verdict::Done);
        row += done;
        if row < rows {
            side.verdicts[row] = match refusal {
                Some(refusal) => Verdict::Refused(refusal.number() as u8),
                None => Verdict::Skipped,
            };
            row += 1;
        }
    }
    side
}

/// This library's, by its single calls.
pub fn single(direction: Direction, layout: u32, read: &[u8]) -> Side {
    let mut side = Side::new(direction, read.len() / direction.read());
    let written = side.written.chunks_exact_mut(direction.written());
    let rows = read.chunks_exact(direction.read()).zip(written);
    for (verdict, (read, written)) in side.verdicts.iter_mut().zip(rows) {
        *verdict = match guarded(|| direction.single(layout, read, written)) {
            Some(Ok(())) => Verdict::Done,
            Some(Err(refusal)) => Verdict::Refused(refusal.number() as u8),
            None => Verdict::Panics,
        };
    }
    side
}
