//! bench: this library and the Rust's own codecs over the same rows, in one process, and this library over rows of far years.
//! Prints the nanoseconds that a row takes, as tables. It stops where the two differ in a row.

mod agreed;
mod best;
mod layouts;
mod rows;
mod rust_side;
mod years;

/// How often each column is timed. The best time counts: whatever else the machine does can only add to it.
const ROUNDS: usize = 30;

fn main() {
    println!(
        "jiff {}, {} rows, best of {ROUNDS} rounds; nanoseconds a row",
        timeglyph::JIFF_VERSION,
        rows::ROWS
    );
    println!();
    layouts::table();
    println!();
    years::table();
}
