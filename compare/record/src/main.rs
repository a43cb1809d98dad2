//! record LIST FOLDER: makes the list LIST, writes its questions to FOLDER/stdin and the answers of the Rust's side to
//! FOLDER/stdout, line for line, and says what it wrote.

mod calendar;
mod composites;
mod lists;
mod replay;
mod words;

use lists::{Line, List, Part, BAD_LINE};
use questions::calendar::jiff_tests_its_window;
use std::collections::BTreeMap;
use std::path::Path;
use std::{env, fs, io, process};

fn main() {
    let arguments: Vec<String> = env::args().skip(1).collect();
    let [name, folder] = arguments.as_slice() else {
        usage()
    };
    assert!(
        jiff_tests_its_window(),
        "this jiff takes nanoseconds outside its own window: no oracle for `refused 6`"
    );
    let list = match name.as_str() {
        "words" => words::list(),
        "replay" => replay::list(),
        _ => usage(),
    };
    if let Err(error) = write(Path::new(folder), &list) {
        eprintln!("record: {folder}: {error}");
        process::exit(1);
    }
    let seeds: Vec<String> = list.seeds.iter().map(u64::to_string).collect();
    let seeds = seeds.join(", ");
    println!(
        "list {name}, jiff {}, seeds {seeds}",
        timeglyph::JIFF_VERSION
    );
    for part in &list.parts {
        println!("{}: {}", part.name, counts(&part.lines));
    }
    println!("whole list: {}", counts(lines_of(&list.parts)));
    for (answer, count) in refusals(&list.parts) {
        println!("{answer}: {count}");
    }
}

fn usage() -> ! {
    eprintln!("usage: record words | replay FOLDER");
    process::exit(2)
}

/// Writes the questions and the answers, each a line.
fn write(folder: &Path, list: &List) -> io::Result<()> {
    let mut questions = String::new();
    let mut answers = String::new();
    for line in lines_of(&list.parts) {
        append(&mut questions, &line.question);
        append(&mut answers, &line.answer);
    }
    if !list.ends_in_lf {
        questions.pop();
    }
    fs::create_dir_all(folder)?;
    fs::write(folder.join("stdin"), questions)?;
    fs::write(folder.join("stdout"), answers)
}

fn append(text: &mut String, line: &str) {
    assert!(
        line.is_ascii() && !line.contains('\n'),
        "not a line of a list: {line}"
    );
    text.push_str(line);
    text.push('\n');
}

fn lines_of(parts: &[Part]) -> impl Iterator<Item = &Line> {
    parts.iter().flat_map(|part| &part.lines)
}

fn counts<'a>(lines: impl IntoIterator<Item = &'a Line>) -> String {
    let (mut all, mut refused, mut bad) = (0, 0, 0);
    for line in lines {
        all += 1;
        refused += usize::from(is_refused(line));
        bad += usize::from(line.answer == BAD_LINE);
    }
    format!("{all} lines, {refused} of them refused, {bad} bad lines")
}

/// How often each refusal is an answer.
fn refusals(parts: &[Part]) -> BTreeMap<&str, usize> {
    let mut all = BTreeMap::new();
    for line in lines_of(parts).filter(|line| is_refused(line)) {
        *all.entry(line.answer.as_str()).or_default() += 1;
    }
    all
}

fn is_refused(line: &Line) -> bool {
    line.answer.starts_with("refused ")
}
