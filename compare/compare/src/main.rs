//! compare: this library, through its package, and the Rust's own codecs on the same inputs, and a report. compare.sh says how it
//! is called and what its status means.

mod all_words;
mod arguments;
mod block;
mod column;
mod composites;
mod direction;
mod file;
mod generated;
mod grouped;
mod guarded;
mod known;
mod outcome;
mod part;
mod report;
mod sides;
mod tally;

use arguments::Run;
use std::process::{self, ExitCode};

fn main() -> ExitCode {
    guarded::keep_quiet();
    println!("jiff          {}", timeglyph::JIFF_VERSION);
    let report = match arguments::read() {
        Run::Generated { inputs, seed } => generated::run(inputs, seed),
        Run::AllWords { layout } => all_words::run(layout),
        Run::File { path } => file::run(&path).unwrap_or_else(|reason| stop(&reason)),
    };
    report.print()
}

/// Says why nothing was compared, or not all.
fn stop(reason: &str) -> ! {
    eprintln!("compare: {reason}");
    process::exit(2)
}
