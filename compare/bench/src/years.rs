//! Years far apart in a layout that holds them: this library alone, the years by turns. The last line has the slowest year's
//! time over the fastest's.

use crate::best::Best;
use crate::rows::{self, room_for_instants, room_for_words};
use crate::{agreed, ROUNDS};
use sleetrick::{decode_column, encode_column, Layout};

const LAYOUT: Layout = Layout::Ns40;

/// Years with their first and last seconds; the year 9999 as far as the window goes.
const YEARS: [(u32, i64, i64); 3] = [
    (1, -62_135_596_800, -62_104_060_801),
    (2026, 1_767_225_600, 1_798_761_599),
    (9999, 253_370_764_800, 253_402_207_200),
];

struct Year {
    number: u32,
    instants: Vec<u8>,
    words: Vec<u8>,
    decodes: Best,
    encodes: Best,
}

pub fn table() {
    let mut years = YEARS.map(|(number, first, last)| {
        let instants = rows::instants(first, last);
        Year {
            number,
            words: agreed::words(LAYOUT, &instants),
            instants,
            decodes: Best::new(),
            encodes: Best::new(),
        }
    });
    let mut instants = room_for_instants();
    let mut words = room_for_words();
    for _ in 0..ROUNDS {
        for year in &mut years {
            let decodes = &mut year.decodes;
            decodes.time(|| decode_column(LAYOUT, &year.words, &mut instants).rows());
            let encodes = &mut year.encodes;
            encodes.time(|| encode_column(LAYOUT, &year.instants, &mut words).rows());
        }
    }
    println!(
        "| year, in layout {} | decoding | encoding |",
        LAYOUT.number()
    );
    println!("|---|---|---|");
    for year in &years {
        let (decodes, encodes) = (year.decodes.a_row(), year.encodes.a_row());
        println!("| {} | {decodes:.1} | {encodes:.1} |", year.number);
    }
    println!(
        "| slowest over fastest | {:.2} | {:.2} |",
        spread(years.iter().map(|year| year.decodes.a_row())),
        spread(years.iter().map(|year| year.encodes.a_row()))
    );
}

fn spread(times: impl Iterator<Item = f64> + Clone) -> f64 {
    times.clone().fold(f64::MIN, f64::max) / times.fold(f64::MAX, f64::min)
}
