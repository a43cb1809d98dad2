//! Rows of one layout, both sides asked about every one of them.

use crate::direction::Direction;
use crate::known::{no_window, NO_WINDOW};
use crate::outcome::Outcome;
use crate::sides::{self, Side, Verdict, FILL};

/// The rows that are asked at a time: as many as a processor's caches hold.
pub const ROWS: usize = 4096;

/// By columns. Hands on what comes of each row, in their order.
pub fn compare(
    direction: Direction,
    layout: u32,
    read: &[u8],
    hand_on: impl FnMut(&[u8], Outcome),
) {
    let ours = sides::ours(direction, layout, read);
    beside_rust(direction, layout, read, &ours, hand_on);
}

/// The same, by single calls.
pub fn compare_singly(
    direction: Direction,
    layout: u32,
    read: &[u8],
    hand_on: impl FnMut(&[u8], Outcome),
) {
    let ours = sides::single(direction, layout, read);
    beside_rust(direction, layout, read, &ours, hand_on);
}

fn beside_rust(
    direction: Direction,
    layout: u32,
    read: &[u8],
    ours: &Side,
    mut hand_on: impl FnMut(&[u8], Outcome),
) {
    let rust = sides::rust(direction, layout, read);
    let verdicts = rust.verdicts.iter().zip(&ours.verdicts);
    let written = rust
        .written
        .chunks_exact(direction.written())
        .zip(ours.written.chunks_exact(direction.written()));
    let asked = read.chunks_exact(direction.read());
    for ((row, (&rust, &ours)), (rust_row, our_row)) in asked.zip(verdicts).zip(written) {
        // A refused row keeps its bytes, on either side.
        let outcome = match (rust, ours) {
            (Verdict::Done, Verdict::Done) if rust_row == our_row => Outcome::Answered,
            (Verdict::Refused(_), Verdict::Refused(_)) if rust_row == our_row => Outcome::Refused,
            _ => Outcome::Differs {
                known: (ours == Verdict::Refused(6) && no_window(direction, layout, row))
                    .then_some(NO_WINDOW),
                rust: text(direction, rust, rust_row),
                ours: text(direction, ours, our_row),
            },
        };
        hand_on(row, outcome);
    }
}

fn text(direction: Direction, verdict: Verdict, row: &[u8]) -> String {
    let wrote = row.iter().any(|&byte| byte != FILL);
    match verdict {
        Verdict::Done if wrote => direction.answer(row),
        Verdict::Done => "done, yet the row is not written".to_string(),
        Verdict::Refused(0) => "refused".to_string(),
        Verdict::Refused(number) if wrote => format!("refused {number}, yet the row is written"),
        Verdict::Refused(number) => format!("refused {number}"),
        Verdict::Skipped => "neither done nor refused".to_string(),
        Verdict::Panics => "panics".to_string(),
    }
}
