//! lines: times the program `stamps` and its peer `rust_stamps`, which stands beside this program, on the same lines, and
//! prints lines a second. It stops where the two differ in a line, the numbers of refusals apart. It runs in the repository's
//! root.

use questions::splitmix::SplitMix;
use questions::words::random::{good_word, instant};
use questions::words::{decode, encode};
use std::fmt::Write;
use std::fs::{self, File};
use std::path::{Path, PathBuf};
use std::process::{Command, Stdio};
use std::time::{Duration, Instant};
use std::{env, str};

const LINES: u64 = 4_000_000;

/// How often each program is timed. The best time counts: whatever else the machine does can only add to it.
const ROUNDS: usize = 15;

const SEED: u64 = 20_000_229;

fn main() {
    let own = env::current_exe().expect("a program has its path");
    let input = own.with_file_name("lines.input");
    fs::write(&input, lines()).expect("target/ can be written");
    let nothing = Path::new("/dev/null");
    let ours = || {
        let mut program = Command::new("tools/run-program");
        program.arg("stamps");
        program
    };
    let rust = || Command::new(own.with_file_name("rust_stamps"));

    let said = [ours(), rust()].map(|program| answers(program, &input));
    assert!(without_numbers(&said[0]) == said[1], "the programs differ");

    let mut best = [[Duration::MAX; 2]; 2];
    for _ in 0..ROUNDS {
        for (from, input) in [nothing, &input].into_iter().enumerate() {
            for (which, program) in [ours(), rust()].into_iter().enumerate() {
                best[from][which] = best[from][which].min(time(program, input));
            }
        }
    }
    // What a program takes to start is no line's.
    let [ours, rust] = [0, 1].map(|which| (best[1][which] - best[0][which]).as_secs_f64());
    println!(
        "jiff {}, {LINES} lines, best of {ROUNDS} rounds; lines a second",
        timeglyph::JIFF_VERSION
    );
    println!();
    println!("| the Rust | ours | ratio |");
    println!("|---|---|---|");
    println!(
        "| {:.1} million | {:.1} million | {:.2} |",
        LINES as f64 / rust / 1e6,
        LINES as f64 / ours / 1e6,
        rust / ours
    );
}

/// Good words and instants of all layouts, by turns.
fn lines() -> String {
    let mut numbers = SplitMix::new(SEED);
    let mut lines = String::new();
    for turn in 0..LINES {
        let layout = numbers.between(1, 16);
        let question = if turn % 2 == 0 {
            decode(layout, good_word(layout, &mut numbers))
        } else {
            let (seconds, nanos) = instant(layout, 0, &mut numbers);
            encode(layout, seconds, nanos)
        };
        writeln!(lines, "{question}").expect("a text has room");
    }
    lines
}

fn answers(mut program: Command, input: &PathBuf) -> Vec<u8> {
    let input = File::open(input).expect("it was written");
    let output = program.stdin(input).stderr(Stdio::inherit()).output();
    let output = output.expect("the program can be run");
    assert!(output.status.success(), "{program:?} fails");
    output.stdout
}

fn without_numbers(answers: &[u8]) -> Vec<u8> {
    let answers = str::from_utf8(answers).expect("answers are text");
    let mut bare = String::new();
    for line in answers.lines() {
        let line = if line.starts_with("refused ") {
            "refused"
        } else {
            line
        };
        bare.push_str(line);
        bare.push('\n');
    }
    bare.into_bytes()
}

fn time(mut program: Command, input: &Path) -> Duration {
    let input = File::open(input).expect("it was written");
    program.stdin(input).stdout(Stdio::null());
    let start = Instant::now();
    let status = program.status().expect("the program can be run");
    let time = start.elapsed();
    assert!(status.success(), "{program:?} fails");
    time
}
