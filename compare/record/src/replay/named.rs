//! Words and instants by name. A fault that the definitions share with the code is proved, and only an answer from elsewhere
//! shows it. It would hide behind words that read the same in another order of their bytes, and behind a range, a zone or a
//! window that is tried only in its middle; these are the others.

use crate::lists::{part, Line, Part};
use crate::{composites, words};
use questions::calendar::{WINDOW_FIRST, WINDOW_LAST};
use questions::composites::Written::Oracle;
use questions::composites::{stamp, unix_sec_nsec};
use questions::words::{decode, encode, Question};

pub fn parts() -> Vec<Part> {
    vec![
        part("words, by name", by_name(), words::line_by_word),
        Part {
            name: "each refusal",
            lines: each_refusal(),
        },
    ]
}

fn by_name() -> Vec<Question> {
    let orders = vec![
        // No two bytes are alike, and in another order they say something else: 2024-02-29 12:34 in BitDate, 12:34:56 of
        // that day in Ns40Le, and the bytes 78 56 34 12 in Nokia; each there and back.
        decode(4, 585_859_710),
        encode(4, 1_709_210_040, 0),
        decode(11, 65_309_900_255_535_672),
        encode(11, 1_709_210_096, 0),
        decode(15, 2_018_915_346),
        encode(15, -1_464_939_399, 0),
    ];
    let ranges = vec![
        // The last word of the range, whose year is 32,767, and the first past it: BitDec and Ns40.
        decode(5, 34_359_738_367),
        decode(5, 34_359_738_368),
        decode(10, 36_028_797_018_963_967),
        decode(10, 36_028_797_018_963_968),
    ];
    [orders, ranges, zones(), window()].concat()
}

/// Gsm: 2024-02-29 12:34:00 in zones whose tens are 4 to 7, of both signs, and from no quarter to 79 of them. The tens have
/// three bits, and no zone on earth has more than 5 of them.
fn zones() -> Vec<Question> {
    let bytes = |zone: i64| 0x42_20_92_21_43_00_00 | zone;
    let tens = (0x04..=0x0F).map(bytes);
    let nines = [0x94, 0x97, 0x9C, 0x9F].map(bytes);
    tens.chain(nines).map(|word| decode(14, word)).collect()
}

/// The last second of the window, 9999-12-30 22:00:00, and the next that the layout has: as words of BitDec, Ns40 and
/// Ns40Le, and as instants; and the first second and the one before it, whose year no word has.
fn window() -> Vec<Question> {
    let last = [
        (5, 10_485_560_704),
        (10, 10_994_068_810_498_048),
        (11, 4_265_057_648_508_928),
    ];
    let mut questions = Vec::new();
    for (layout, word) in last {
        questions.push(decode(layout, word));
        questions.push(decode(layout, word + 1));
        for seconds in [WINDOW_LAST, WINDOW_LAST + 1, WINDOW_FIRST, WINDOW_FIRST - 1] {
            questions.push(encode(layout, seconds, 0));
        }
    }
    questions
}

/// Each number that a question can be refused under, by the smallest numbers that are. (11 is for columns alone.)
fn each_refusal() -> Vec<Line> {
    let word = |question| words::line_by_word(&question);
    let composite = |question| composites::line(&question);
    let lines = vec![
        (1, word(decode(0, 0))),
        (2, word(decode(1, -1))),
        (3, word(decode(1, 0))),
        // The tenth of October is the smallest date in semi-octets.
        (4, word(decode(14, 0x00_01_01_00_00_00_A0))),
        (5, word(decode(16, 25_920_000))),
        (6, word(encode(1, WINDOW_LAST + 1, 0))),
        (7, word(encode(1, 0, 0))),
        (8, word(encode(15, -1_770_359_296, 0))),
        (9, word(encode(1, 0, 1_000_000_000))),
        (10, composite(stamp(Oracle, &[]))),
        (12, composite(unix_sec_nsec(i64::MAX, 1_000_000_000))),
    ];
    for (number, line) in &lines {
        assert_eq!(
            line.answer,
            format!("refused {number}"),
            "{}",
            line.question
        );
    }
    lines.into_iter().map(|(_, line)| line).collect()
}
