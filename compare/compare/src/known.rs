//! The departures that docs/DIFFERENCES.md names and that an input can show.

use crate::direction::Direction;
use questions::calendar::{jiff_tests_its_window, WINDOW_FIRST, WINDOW_LAST};
use questions::rows;
use std::sync::LazyLock;

pub const NO_WINDOW: &str = "this jiff tests no window, so the Rust encodes an instant outside it, or panics; refused 6 here";
pub const NO_CARRY: &str =
    "unix_sec_nsec, where the Rust's seconds do not fit 64 bits; refused 12 here";

static WINDOW_TESTED: LazyLock<bool> = LazyLock::new(jiff_tests_its_window);

/// Whether the row is an instant that document 01 refuses under 6, where this jiff tests no window.
pub fn no_window(direction: Direction, layout: u32, row: &[u8]) -> bool {
    matches!(direction, Direction::Encode)
        && (1..=14).contains(&layout)
        && !(WINDOW_FIRST..=WINDOW_LAST).contains(&rows::instant(row).0)
        && !*WINDOW_TESTED
}
