//! The boundaries of words, each asked on both sides, and numbers that no layout and no nanoseconds have.

use super::layouts::{Civil, Layout, MONTH};
use super::{decode, encode, Question};

/// Good in every layout of civil fields, and of a month that has 31 days.
pub const GOOD: Civil = [2004, 1, 15, 10, 20, 30];

/// Good in layout 15, with four different bytes, and in layout 16: noon of 2000-01-01.
const GOOD_NOKIA: i64 = 0x0102_0304;
const GOOD_SQL_SERVER: i64 = 36_524 << 32 | 12_960_000;

/// On both sides of the leap rule's cases.
pub const YEARS: [i64; 11] = [0, 4, 100, 400, 1900, 1904, 2000, 2003, 2004, 2100, 2400];

/// Where ranges of words end: the first number outside.
const RANGE_ENDS: [i64; 7] = [
    1 << 31,
    1 << 32,
    1 << 35,
    1_000_000_000_000,
    1 << 48,
    1 << 55,
    1 << 56,
];

/// Layout numbers outside 1 to 16, and nanoseconds outside an instant's. Some come back as good ones when they are cut to
/// 32 bits.
pub fn numbers_outside() -> Vec<Question> {
    let layouts = [
        0,
        17,
        4_294_967_295,
        -1,
        4_294_967_297,
        4_294_967_312,
        i64::MIN,
        i64::MAX,
    ];
    let nanos = [
        1_000_000_000,
        4_294_967_295,
        -1,
        4_294_967_296,
        i64::MIN,
        i64::MAX,
    ];
    let mut all = Vec::new();
    for layout in layouts {
        all.push(decode(layout, 2_162_688));
        all.push(decode(layout, -1));
        all.push(encode(layout, 1_000_000_000, 0));
        all.push(encode(layout, 1_000_000_000, 4_294_967_295));
    }
    for layout in [1, 14, 15, 16] {
        for nanos in nanos {
            all.push(encode(layout, 1_000_000_000, nanos));
            all.push(encode(layout, i64::MAX, nanos));
        }
    }
    all
}

pub fn questions(layout: i64) -> Vec<Question> {
    let mut all = range_ends();
    let good = match layout {
        15 => {
            all.extend(nokia());
            GOOD_NOKIA
        }
        16 => {
            all.extend(sql_server());
            GOOD_SQL_SERVER
        }
        _ => {
            let layout = Layout::of(layout);
            all.extend(fields(&layout));
            all.extend(dates(&layout));
            all.extend(extras(&layout));
            layout.word(&GOOD)
        }
    };
    if layout == 14 {
        all.extend(semi_octets());
    }
    all.extend((0..64).map(|bit| 1 << bit));
    all.extend((0..64).map(|bit| good ^ 1 << bit));
    all.into_iter().map(|word| decode(layout, word)).collect()
}

fn range_ends() -> Vec<i64> {
    let mut all = vec![0, -1, i64::MIN, i64::MAX];
    for end in RANGE_ENDS {
        all.extend([end - 1, end, -end]);
    }
    all
}

/// Each field at its edges, in the good word and in the first and the last.
fn fields(layout: &Layout) -> Vec<i64> {
    let mut all = Vec::new();
    for civil in [GOOD, first(layout), last(layout)] {
        let word = layout.word(&civil);
        all.push(word);
        for field in 0..layout.fields() {
            let edges = layout.edges(field).into_iter();
            all.extend(edges.map(|stored| layout.with(word, field, stored)));
        }
    }
    all
}

fn first(layout: &Layout) -> Civil {
    [*layout.years.start(), 1, 1, 0, 0, 0]
}

/// The last second of the years, or of the civil window where that ends earlier.
fn last(layout: &Layout) -> Civil {
    match *layout.years.end() {
        9999 => [9999, 12, 30, 22, 0, 0],
        year => [year, 12, 31, 23, 59, 59],
    }
}

/// Ends of months in years around the leap rule, and the days at the end of the civil window.
fn dates(layout: &Layout) -> Vec<i64> {
    let mut all = Vec::new();
    for year in YEARS.into_iter().filter(|year| layout.years.contains(year)) {
        for (month, day) in [(1, 31), (2, 28), (2, 29), (2, 30), (3, 1), (4, 30), (4, 31)] {
            all.push(layout.word(&[year, month, day, 0, 0, 0]));
        }
        all.push(layout.word(&[year, 12, 31, 23, 59, 59]));
    }
    if layout.years.contains(&9999) {
        for (day, hour, minute, second) in [
            (30, 21, 59, 59),
            (30, 22, 0, 1),
            (30, 22, 1, 0),
            (30, 23, 0, 0),
            (31, 0, 0, 0),
            (31, 23, 59, 59),
        ] {
            all.push(layout.word(&[9999, 12, day, hour, minute, second]));
        }
    }
    all
}

/// What is no civil field: all its numbers up to a byte, each of its bits, and all of them; in a good word and in one
/// whose month is bad.
fn extras(layout: &Layout) -> Vec<i64> {
    let most = layout.most_extra();
    let bits = (0..64).map(|bit| 1 << bit);
    let stored: Vec<u64> = (0..256)
        .chain(bits)
        .chain([most])
        .filter(|&stored| stored <= most)
        .collect();
    let good = layout.word(&GOOD);
    let bad = layout.with(good, MONTH, layout.most(MONTH));
    [good, bad]
        .into_iter()
        .flat_map(|word| {
            stored
                .iter()
                .map(move |&stored| layout.with_extra(word, stored))
        })
        .collect()
}

/// Layout 14: every year byte, and nibbles above 9 in the other bytes.
fn semi_octets() -> Vec<i64> {
    let layout = Layout::of(14);
    let good = layout.word(&GOOD);
    let mut all: Vec<i64> = (0..256).map(|byte| layout.with(good, 0, byte)).collect();
    for field in 1..layout.fields() {
        for above in 10..16 {
            for nibble in [0, 1, 5, above] {
                all.push(layout.with(good, field, above << 4 | nibble));
                all.push(layout.with(good, field, nibble << 4 | above));
            }
        }
    }
    all
}

/// Layout 15: p at its ends, at the ends of its bytes, and around 1970.
fn nokia() -> Vec<i64> {
    let in_1970: u32 = 1_770_359_295;
    let mut all = vec![in_1970 - 1, in_1970, in_1970 + 1, 0x0102_0304, 0x0403_0201];
    for end in [0xFF, 0xFFFF, 0x00FF_FFFF, 0x7FFF_FFFF, u32::MAX - 1] {
        all.extend([end - 1, end, end + 1]);
    }
    all.into_iter().map(|p| i64::from(p.swap_bytes())).collect()
}

/// Layout 16: days at their ends and around 1900 and 1970, each with ticks at theirs.
fn sql_server() -> Vec<i64> {
    let days = [
        i32::MIN,
        i32::MIN + 1,
        -1,
        0,
        1,
        25_566,
        25_567,
        25_568,
        i32::MAX - 1,
        i32::MAX,
    ];
    let ticks = [
        0,
        1,
        2,
        3,
        299,
        300,
        301,
        25_919_999,
        25_920_000,
        1 << 31,
        u32::MAX,
    ];
    days.into_iter()
        .flat_map(|day| ticks.map(|ticks| i64::from(day) << 32 | i64::from(ticks)))
        .collect()
}
