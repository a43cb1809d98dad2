//! Five mornings, as a simulator does them: each morning's landing calls are read from a file, decoded column by column, and the
//! morning is seeded from its first call.
//!
//!     cargo run --example five_mornings [FOLDER]
//!
//! A refused call is told and left out: it has no instant. A morning of which no call is left has no seed, and the status is 1.

use sleetrick::{decode_words, Instant, Layout, Refusal, Slot, MOST_ROWS};
use std::path::{Path, PathBuf};
use std::process::ExitCode;
use std::{env, fs};

const MORNINGS: [&str; 5] = ["monday", "tuesday", "wednesday", "thursday", "friday"];

fn main() -> ExitCode {
    let samples = Path::new(env!("CARGO_MANIFEST_DIR")).join("../samples");
    let folder = env::args_os().nth(1).map_or(samples, PathBuf::from);
    let mut status = ExitCode::SUCCESS;
    for name in MORNINGS {
        match morning(&folder.join(name)) {
            Ok(morning) => {
                for (call, refusal) in &morning.refused {
                    println!(
                        "{name}: {:?} {} is left out, {refusal}",
                        call.layout, call.word
                    );
                }
                let first = morning.first;
                println!("{name}: {} calls, seed {}", morning.calls, first.seconds());
            }
            Err(reason) => {
                eprintln!("{name}: no seed, {reason}");
                status = ExitCode::FAILURE;
            }
        }
    }
    status
}

/// A landing call, as a controller stamped it.
#[derive(Clone, Copy, Debug, PartialEq, Eq)]
pub struct Call {
    /// The layout of the controller's make.
    pub layout: Layout,
    /// What it stamped.
    pub word: i64,
}

/// What came of a morning's calls.
pub struct Morning {
    /// The earliest call.
    pub first: Instant,
    /// How many calls have an instant.
    pub calls: usize,
    /// Those that have none, and why.
    pub refused: Vec<(Call, Refusal)>,
}

/// The morning of a file with a line `d LAYOUT WORD` for each call.
///
/// # Errors
///
/// Why there is no seed: the file can't be read, a line of it is no call, or no call has an instant.
pub fn morning(file: &Path) -> Result<Morning, String> {
    let text = fs::read_to_string(file).map_err(|error| format!("{}: {error}", file.display()))?;
    let mut calls = Vec::new();
    for (line, number) in text.lines().zip(1..) {
        calls.push(
            call(line).ok_or_else(|| format!("{}:{number}: not a call: {line}", file.display()))?,
        );
    }
    let mut instants = Vec::new();
    let mut refused = Vec::new();
    // A site has controllers of several makes: the words of each make are a column.
    for &layout in Layout::ALL {
        let of_layout = calls.iter().filter(|call| call.layout == layout);
        let words: Vec<i64> = of_layout.map(|call| call.word).collect();
        for column in words.chunks(MOST_ROWS) {
            decode_column(layout, column, &mut instants, &mut refused);
        }
    }
    match instants.iter().min() {
        Some(&first) => Ok(Morning {
            first,
            calls: instants.len(),
            refused,
        }),
        None => Err(format!("{} calls, and none has an instant", calls.len())),
    }
}

/// Decodes a column, and goes on behind each word that is refused.
fn decode_column(
    layout: Layout,
    words: &[i64],
    instants: &mut Vec<Instant>,
    refused: &mut Vec<(Call, Refusal)>,
) {
    let mut room = vec![Slot::EMPTY; words.len()];
    let mut from = 0;
    while from < words.len() {
        let done = decode_words(layout, &words[from..], &mut room[from..]);
        instants.extend(done.results());
        from += done.rows();
        if let Some(refusal) = done.refusal() {
            let word = words[from];
            refused.push((Call { layout, word }, refusal));
            from += 1;
        }
    }
}

/// What a line `d LAYOUT WORD` says; nothing where it is no such line.
fn call(line: &str) -> Option<Call> {
    let (layout, word) = line.strip_prefix("d ")?.split_once(' ')?;
    Some(Call {
        layout: layout.parse::<u32>().ok()?.try_into().ok()?,
        word: word.parse().ok()?,
    })
}
