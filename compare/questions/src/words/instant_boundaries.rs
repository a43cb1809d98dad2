//! The boundaries of instants, each asked on both sides.

use super::layouts::Layout;
use super::word_boundaries::{GOOD, YEARS};
use super::{encode, Question};
use crate::calendar::{midnight, WINDOW_FIRST, WINDOW_LAST};

const NANOSECONDS: i64 = 1_000_000_000;

/// The seconds of 1900-01-01, from which layout 16 counts its days.
pub const YEAR_1900: i64 = -2_208_988_800;

/// The seconds of layout 15's first and last word.
pub const NOKIA_FIRST: i64 = -1_770_359_295;
pub const NOKIA_LAST: i64 = 2_524_608_000;

/// The nanoseconds of three ticks of layout 16.
pub const THREE_TICKS: i64 = 10_000_000;

pub fn questions(layout: i64) -> Vec<Question> {
    let mut seconds = machine_ends();
    seconds.extend(one_minute());
    seconds.extend(beside([WINDOW_FIRST, WINDOW_LAST + 1]));
    match layout {
        15 => seconds.extend(beside([NOKIA_FIRST, NOKIA_LAST + 1])),
        16 => seconds.extend(beside([YEAR_1900, YEAR_1900 + 86_400])),
        _ => seconds.extend(beside(year_edges(&Layout::of(layout)))),
    }
    let mut all: Vec<(i64, i64)> = seconds
        .into_iter()
        .flat_map(|second| [(second, 0), (second, NANOSECONDS - 1)])
        .collect();
    all.extend(nanoseconds());
    if layout == 16 {
        all.extend(ticks());
    }
    all.into_iter()
        .map(|(seconds, nanos)| encode(layout, seconds, nanos))
        .collect()
}

/// Each of them, and the second before.
fn beside(seconds: impl IntoIterator<Item = i64>) -> Vec<i64> {
    seconds
        .into_iter()
        .flat_map(|second| [second - 1, second])
        .collect()
}

/// The ends of 64 and of 32 bits, and 1970.
fn machine_ends() -> Vec<i64> {
    let mut all = vec![i64::MIN, i64::MIN + 1, i64::MAX - 1, i64::MAX];
    all.extend(beside([0, 1, 1 << 31, 1 << 32, -1 << 31, -1 << 32]));
    all
}

/// Every second of a minute.
fn one_minute() -> Vec<i64> {
    let start = good_minute();
    (start..start + 60).collect()
}

fn good_minute() -> i64 {
    let [year, month, day, hour, minute, _] = GOOD;
    midnight(year as i16, month as i8, day as i8) + hour * 3600 + minute * 60
}

/// Nanoseconds at their ends and past them, in good seconds and outside the window.
fn nanoseconds() -> Vec<(i64, i64)> {
    let nanos = [
        0,
        1,
        499_999_999,
        500_000_000,
        999_999_998,
        999_999_999,
        1_000_000_000,
        4_294_967_295,
    ];
    [
        good_minute(),
        -1,
        WINDOW_FIRST,
        WINDOW_LAST,
        WINDOW_LAST + 1,
    ]
    .into_iter()
    .flat_map(|seconds| nanos.map(|nanos| (seconds, nanos)))
    .collect()
}

/// Where the first and the last year of the column begin and end, and the leap days.
fn year_edges(layout: &Layout) -> Vec<i64> {
    let mut all = Vec::new();
    for year in [*layout.years.start(), *layout.years.end()] {
        all.extend([day(year, 1, 1), day(year, 12, 31) + 86_400]);
    }
    for year in YEARS.into_iter().filter(|year| layout.years.contains(year)) {
        all.extend([
            day(year, 2, 28),
            day(year, 2, 28) + 86_400,
            day(year, 3, 1),
            day(year, 12, 31),
        ]);
    }
    all
}

fn day(year: i64, month: i8, day: i8) -> i64 {
    midnight(year as i16, month, day)
}

/// Layout 16: half ticks and their neighbours early and late in days, and the last tick of a day, which may roll; in days
/// at the ends of 32 bits and around 1900 and 1970.
fn ticks() -> Vec<(i64, i64)> {
    let mut rests = vec![0, 1, 1_666_666, 1_666_667, 3_333_333, 3_333_334];
    for half in 4_999_998..=5_000_002 {
        // Three times 6,666,667 is 1, but for multiples of 10,000,000: so three times the rest is `half`.
        let rest = half * 6_666_667 % THREE_TICKS;
        for turn in [0, 1, 2, 4_320_000, 8_639_998, 8_639_999] {
            rests.push(rest + turn * THREE_TICKS);
        }
    }
    let end = 86_400 * NANOSECONDS;
    rests.extend(end - 1_666_668..end - 1_666_664);
    rests.extend([end - 3_333_334, end - 3_333_333, end - 1]);
    let min = i64::from(i32::MIN);
    let max = i64::from(i32::MAX);
    let days = [
        min - 2,
        min - 1,
        min,
        -1,
        0,
        1,
        25_566,
        25_567,
        max - 1,
        max,
        max + 1,
    ];
    days.into_iter()
        .flat_map(|day| rests.iter().map(move |rest| (day, rest)))
        .map(|(day, rest)| {
            (
                YEAR_1900 + day * 86_400 + rest / NANOSECONDS,
                rest % NANOSECONDS,
            )
        })
        .collect()
}
