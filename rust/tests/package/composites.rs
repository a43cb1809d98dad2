//! The six composites against the list of crates/replay, whose answers were recorded from the Rust.

use sleetrick::{
    cp56time2a, filetime_hilo, oracle_date, udf, unix_sec_nsec, vmsd, Instant, Refusal,
};
use std::collections::BTreeMap;
use std::fs;
use std::path::Path;

/// What the package answers to a question of the program `replay`; nothing where its types can't be asked it.
fn answer(question: &str) -> Option<Result<Instant, Refusal>> {
    let (word, asked) = question.split_once(' ')?;
    Some(match word {
        "filetime" => filetime_hilo(first(asked)?, second(asked)?),
        "vmsd" => vmsd(first(asked)?, second(asked)?),
        "unix" => unix_sec_nsec(first(asked)?, second(asked)?),
        "oracle" => oracle_date(&bytes(asked)?),
        "cp56" => cp56time2a(&bytes(asked)?),
        "udf" => udf(&bytes(asked)?),
        _ => return None,
    })
}

fn first<T: std::str::FromStr>(numbers: &str) -> Option<T> {
    numbers.split(' ').next()?.parse().ok()
}

fn second<T: std::str::FromStr>(numbers: &str) -> Option<T> {
    let (_, second) = numbers.split_once(' ')?;
    second.parse().ok()
}

fn bytes(hex: &str) -> Option<Vec<u8>> {
    if hex == "-" {
        return Some(Vec::new());
    }
    (0..hex.len())
        .step_by(2)
        .map(|from| u8::from_str_radix(hex.get(from..from + 2)?, 16).ok())
        .collect()
}

#[test]
fn as_recorded() {
    let folder = Path::new(env!("CARGO_MANIFEST_DIR")).join("../crates/replay");
    let text =
        |name| fs::read_to_string(folder.join(name)).expect("the list stands in crates/replay");
    let (questions, answers) = (text("stdin"), text("stdout"));
    let mut asked = BTreeMap::new();
    for (question, recorded) in questions.lines().zip(answers.lines()) {
        if recorded == "bad line" {
            continue;
        }
        let told = match answer(question) {
            None => continue,
            Some(Ok(instant)) => format!("{} {}", instant.seconds(), instant.nanos()),
            Some(Err(refusal)) => format!("refused {}", refusal.number()),
        };
        assert_eq!(told, recorded, "{question}");
        let word = question.split(' ').next().unwrap();
        *asked.entry(word).or_insert(0) += 1;
    }
    assert!(asked.values().all(|&lines| lines >= 600), "{asked:?}");
    assert_eq!(asked.len(), 6);
}
