//! The example of the five mornings, over samples/: its seeds are the earliest of the stored answers.

#[allow(dead_code, reason = "its main is not called here")]
#[path = "../../examples/five_mornings.rs"]
mod five_mornings;

use five_mornings::morning;
use std::collections::HashSet;
use std::fs;
use std::path::Path;

#[test]
fn five_seeds() {
    let samples = Path::new(env!("CARGO_MANIFEST_DIR")).join("../samples");
    let mut seeds = HashSet::new();
    for name in ["monday", "tuesday", "wednesday", "thursday", "friday"] {
        let morning = morning(&samples.join(name)).expect("a morning");
        let answers = fs::read_to_string(samples.join(name).with_extension("answers")).unwrap();
        let (refused, told): (Vec<_>, Vec<_>) = answers
            .lines()
            .partition(|line| line.starts_with("refused"));
        let numbers: Vec<String> = morning
            .refused
            .iter()
            .map(|(_, refusal)| format!("refused {}", refusal.number()))
            .collect();
        assert_eq!(numbers, refused, "{name}");
        assert_eq!(morning.calls, told.len(), "{name}");
        let first = told
            .iter()
            .map(|line| {
                let (seconds, nanos) = line.split_once(' ').unwrap();
                (
                    seconds.parse::<i64>().unwrap(),
                    nanos.parse::<u32>().unwrap(),
                )
            })
            .min();
        assert_eq!(
            first,
            Some((morning.first.seconds(), morning.first.nanos())),
            "{name}"
        );
        seeds.insert(morning.first.seconds());
    }
    assert_eq!(seeds.len(), 5);
}

/// A morning without a call has no seed, and a line that is no call is not passed over.
#[test]
fn no_seed() {
    let folder = Path::new(env!("CARGO_TARGET_TMPDIR"));
    for (name, text) in [
        ("none", ""),
        ("refused", "d 9 0\nd 6 0\n"),
        ("no-layout", "d 17 0\n"),
        ("no-call", "d 9 1622802432\nhello\n"),
        ("too-many", "d 9 1622802432 0\n"),
    ] {
        let file = folder.join(name);
        fs::write(&file, text).unwrap();
        assert!(morning(&file).is_err(), "{name}");
    }
    assert!(morning(&folder.join("no-file")).is_err());
}
