//! The boundaries of byte stamps, each asked on both sides.

use super::written::Civil;
use super::{stamp, Question, Written};

/// Good in every kind, and of a month that has 31 days.
const GOOD: Civil = [2004, 1, 15, 10, 20, 30];

/// On both sides of the leap rule's cases; those that a kind can't write come back as others.
const YEARS: [i64; 16] = [
    -9999, -400, -100, -4, -1, 0, 4, 100, 400, 1900, 1970, 2000, 2003, 2004, 2100, 9999,
];

/// Both ends of the window and the seconds outside them.
const WINDOW: [Civil; 4] = [
    [-9999, 1, 2, 1, 59, 58],
    [-9999, 1, 2, 1, 59, 59],
    [9999, 12, 30, 22, 0, 0],
    [9999, 12, 30, 22, 0, 1],
];

/// UDF's zones: the ends of the signed minutes, the one that says no zone and its neighbours, and ordinary ones.
const ZONES: [u16; 12] = [
    0x000, 0x001, 0x03C, 0x5A0, 0x7FE, 0x7FF, 0x800, 0x801, 0x802, 0xA60, 0xFFE, 0xFFF,
];

/// As many bytes as a line holds.
const LONGEST: usize = 31;

pub fn questions(written: Written) -> Vec<Question> {
    let mut all = lengths(written);
    all.extend(each_byte(written));
    all.extend(each_bit(written));
    all.extend(dates(written));
    match written {
        Written::Oracle => all.extend(oracle_years()),
        Written::Cp56 => all.extend(milliseconds()),
        Written::Udf => {
            all.extend(outer_years());
            all.extend(zones());
            all.extend(units());
        }
    }
    all
}

/// Every length, of a stamp that is good as far as it goes and of one that is not.
fn lengths(written: Written) -> Vec<Question> {
    let mut good = written.bytes(&GOOD);
    good.resize(LONGEST, 0);
    let mut all = Vec::new();
    for length in 0..=LONGEST {
        all.push(stamp(written, &good[..length]));
        all.push(stamp(written, &[0xFF; LONGEST][..length]));
    }
    all
}

/// Each byte of a good stamp through all its values.
fn each_byte(written: Written) -> Vec<Question> {
    let mut all = Vec::new();
    for place in 0..written.length() {
        for value in 0..=u8::MAX {
            let mut bytes = written.bytes(&GOOD);
            bytes[place] = value;
            all.push(stamp(written, &bytes));
        }
    }
    all
}

/// Each bit alone.
fn each_bit(written: Written) -> Vec<Question> {
    let mut all = Vec::new();
    for bit in 0..written.length() * 8 {
        let mut bytes = vec![0; written.length()];
        bytes[bit / 8] = 1 << (bit % 8);
        all.push(stamp(written, &bytes));
    }
    all
}

/// The ends of the window and of each field, and the ends of months in years of every sort.
fn dates(written: Written) -> Vec<Question> {
    let mut civils = WINDOW.to_vec();
    for year in YEARS {
        civils.push([year, 1, 1, 0, 0, 0]);
        civils.push([year, 12, 31, 23, 59, 59]);
        for day in 28..=30 {
            civils.push([year, 2, day, 12, 0, 0]);
        }
    }
    for month in 0..=13 {
        for day in [0, 1, 28, 29, 30, 31, 32] {
            civils.push([2023, month, day, 12, 0, 0]);
            civils.push([2024, month, day, 12, 0, 0]);
        }
    }
    for [hour, minute, second] in [[23, 59, 59], [24, 0, 0], [0, 60, 0], [0, 0, 60]] {
        civils.push([2004, 1, 15, hour, minute, second]);
    }
    civils
        .iter()
        .map(|civil| stamp(written, &written.bytes(civil)))
        .collect()
}

/// Two halves that make one year in several ways, also the ends' years.
fn oracle_years() -> Vec<Question> {
    let halves = [
        (0, 101),
        (0, 100),
        (1, 1),
        (1, 0),
        (99, 200),
        (100, 100),
        (101, 0),
        (119, 200),
        (120, 100),
        (121, 0),
        (198, 255),
        (199, 199),
        (199, 200),
        (200, 99),
        (200, 100),
        (255, 255),
    ];
    let year = |(century, rest)| stamp(Written::Oracle, &[century, rest, 6, 15, 1, 1, 1]);
    halves.into_iter().map(year).collect()
}

/// Beside each whole second, and past the minute.
fn milliseconds() -> Vec<Question> {
    let mut all = Vec::new();
    for second in 0..=65 {
        for milliseconds in [second * 1000, second * 1000 + 1, second * 1000 + 999] {
            let Ok(milliseconds) = u16::try_from(milliseconds) else {
                continue;
            };
            let mut bytes = Written::Cp56.bytes(&GOOD);
            bytes[..2].copy_from_slice(&milliseconds.to_le_bytes());
            all.push(stamp(Written::Cp56, &bytes));
        }
    }
    all
}

/// Years past the end years, and the ends of their 16 bits.
fn outer_years() -> Vec<Question> {
    [-32_768, -32_767, -10_001, -10_000, 10_000, 10_001, 32_767]
        .iter()
        .map(|&year| stamp(Written::Udf, &Written::Udf.bytes(&[year, 6, 15, 0, 0, 0])))
        .collect()
}

/// Every zone under every type, at a good time, at 1970 and at both ends of the window, which most zones lead out of.
fn zones() -> Vec<Question> {
    let mut all = Vec::new();
    for zone in ZONES {
        for kind in [0x0000, 0x1000, 0x2000, 0x8000, 0xF000] {
            for civil in [GOOD, [1970, 1, 1, 0, 0, 0]].iter().chain(&WINDOW) {
                let mut bytes = Written::Udf.bytes(civil);
                bytes[..2].copy_from_slice(&(kind | zone).to_le_bytes());
                all.push(stamp(Written::Udf, &bytes));
            }
        }
    }
    all
}

/// Units beside a whole second and their ends, at a good time, before 1970 and at both ends of the window.
fn units() -> Vec<Question> {
    let units = [
        [0, 0, 1],
        [0, 0, 255],
        [0, 255, 0],
        [99, 99, 99],
        [99, 99, 100],
        [99, 100, 0],
        [100, 0, 0],
        [98, 255, 255],
        [99, 97, 255],
        [199, 99, 99],
        [199, 99, 100],
        [200, 0, 0],
        [255, 0, 0],
        [255, 255, 255],
    ];
    let mut all = Vec::new();
    for unit in units {
        for civil in [GOOD, [1969, 12, 31, 23, 59, 59]].iter().chain(&WINDOW) {
            let mut bytes = Written::Udf.bytes(civil);
            bytes[9..].copy_from_slice(&unit);
            all.push(stamp(Written::Udf, &bytes));
        }
    }
    all
}
