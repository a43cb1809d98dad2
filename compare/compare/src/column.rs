//! A column in one call, beside the Rust's answers up to the first row that is refused: the count, every byte of the output,
//! and the input, which has to keep its bytes.

use crate::direction::Direction;
use crate::guarded::guarded;
use crate::known::no_window;
use crate::outcome::Outcome;
use crate::part::Part;
use crate::sides::{self, Verdict, FILL};

/// What a column came to: the rows that are done, whether one was refused, and all bytes of the output.
#[derive(PartialEq, Eq)]
struct Column {
    done: usize,
    refused: bool,
    written: Vec<u8>,
}

/// Counts the rows that are asked: those up to the first that is refused.
pub fn compare(direction: Direction, layout: u32, read: &[u8], part: &mut Part) {
    let kept = read.to_vec();
    let rust = rust(direction, layout, read);
    let ours = ours(direction, layout, read);
    if ours.as_ref() == Some(&rust) && kept == read {
        part.answered += rust.done as u64;
        part.refused += u64::from(rust.refused);
        return;
    }
    let row = match &ours {
        Some(ours) => first_difference(direction, &rust, ours),
        None => 0,
    };
    let differs = Outcome::Differs {
        known: None,
        rust: text(direction, &rust, row),
        ours: match &ours {
            None => "panics".to_string(),
            Some(_) if kept != read => "writes to its input".to_string(),
            Some(ours) => text(direction, ours, row),
        },
    };
    part.count(differs, || {
        let mut rows = read.chunks_exact(direction.read());
        let column = format!("a column of {} rows", rows.len());
        match rows.nth(row) {
            Some(asked) => format!(
                "{}, row {row} of {column}",
                direction.question(layout, asked)
            ),
            None => format!("{column}, layout {layout}"),
        }
    });
}

/// A row that this jiff takes since it tests no window counts as refused: it is known, and the blocks tell it.
fn rust(direction: Direction, layout: u32, read: &[u8]) -> Column {
    let side = sides::rust(direction, layout, read);
    let rows = side.verdicts.len();
    let done = side
        .verdicts
        .iter()
        .zip(read.chunks_exact(direction.read()))
        .position(|(&verdict, row)| verdict != Verdict::Done || no_window(direction, layout, row))
        .unwrap_or(rows);
    let mut written = side.written;
    written[done * direction.written()..].fill(FILL);
    Column {
        done,
        refused: done < rows,
        written,
    }
}

/// Nothing where the call panics.
fn ours(direction: Direction, layout: u32, read: &[u8]) -> Option<Column> {
    let rows = read.len() / direction.read();
    let mut written = vec![FILL; rows * direction.written()];
    let (done, refused) = guarded(|| {
        let done = direction.ours(layout, read, &mut written);
        (done.rows(), done.refusal().is_some())
    })?;
    Some(Column {
        done,
        refused,
        written,
    })
}

/// The first row whose bytes differ, or where the one stops and the other goes on.
fn first_difference(direction: Direction, rust: &Column, ours: &Column) -> usize {
    let bytes = rust.written.iter().zip(&ours.written);
    let different = bytes.take_while(|(one, other)| one == other).count() / direction.written();
    match rust.done == ours.done {
        true => different,
        false => different.min(rust.done).min(ours.done),
    }
}

fn text(direction: Direction, column: &Column, row: usize) -> String {
    let count = match column.refused {
        true => format!("{} rows, then a refusal", column.done),
        false => format!("{} rows", column.done),
    };
    let written = column.written.chunks_exact(direction.written()).nth(row);
    match written {
        Some(bytes) if bytes.iter().any(|&byte| byte != FILL) => {
            format!("{count}; the row has {}", direction.answer(bytes))
        }
        Some(_) => format!("{count}; the row is not written"),
        None => count,
    }
}
