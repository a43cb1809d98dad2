//! The lines of a file, as the line program takes them. Each difference is told with its line's number.

use crate::block;
use crate::direction::row;
use crate::grouped::grouped;
use crate::outcome::Outcome;
use crate::part::Part;
use crate::report::Report;
use questions::line::question;
use std::fs;
use std::path::Path;

pub fn run(path: &Path) -> Result<Report, String> {
    let text = fs::read(path).map_err(|error| format!("{}: {error}", path.display()))?;
    println!("lines         {}", path.display());
    let mut part = Part::new("lines that ask");
    let mut asks_nothing = Lines::default();
    let mut not_asked = Lines::default();
    let mut all = 0;
    for line in lines(&text) {
        all += 1;
        let number = all;
        let Some(question) = question(line) else {
            asks_nothing.push(number);
            continue;
        };
        let Some((direction, layout, row)) = row(&question) else {
            not_asked.push(number);
            continue;
        };
        block::compare(direction, layout, &row, |_, outcome| {
            if let Outcome::Differs {
                known: None,
                rust,
                ours,
            } = &outcome
            {
                println!("line {number}: {question}: the Rust {rust}, ours {ours}");
            }
            part.count(outcome, || format!("line {number}: {question}"));
        });
    }
    println!();
    println!("{} lines", grouped(all));
    asks_nothing.tell("ask nothing (`bad line`)");
    not_asked
        .tell("can't be asked of the Rust (no layout of 1 to 16, or no instant's nanoseconds)");
    let mut report = Report::default();
    report.push(part);
    Ok(report)
}

/// Lines without their LF; the last may lack it.
fn lines(text: &[u8]) -> impl Iterator<Item = &[u8]> {
    text.split_inclusive(|&byte| byte == b'\n')
        .map(|line| line.strip_suffix(b"\n").unwrap_or(line))
}

/// How many lines of a kind are named.
const NAMED: usize = 10;

/// Lines that are counted, and the first few of them named.
#[derive(Default)]
struct Lines {
    count: u64,
    first: Vec<String>,
}

impl Lines {
    fn push(&mut self, number: u64) {
        self.count += 1;
        if self.first.len() < NAMED {
            self.first.push(number.to_string());
        }
    }

    fn tell(&self, what: &str) {
        if self.count > 0 {
            let (count, first) = (grouped(self.count), self.first.join(", "));
            let more = if self.count > NAMED as u64 {
                ", .."
            } else {
                ""
            };
            println!("{count} {what}: lines {first}{more}");
        }
    }
}
