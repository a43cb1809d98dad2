//! The sixteen layouts: the Rust and this library by turns.

use crate::best::Best;
use crate::rows::{self, room_for_counts, room_for_instants, room_for_words};
use crate::{agreed, rust_side, ROUNDS};
use sleetrick::{decode_column, encode_column, Layout};

/// The seconds of 2000 to 2049, which every layout has room for.
const FIRST: i64 = 946_684_800;
const LAST: i64 = 2_524_607_999;

pub fn table() {
    let instants = rows::instants(FIRST, LAST);
    let mut layouts: Vec<Timed> = Layout::ALL
        .iter()
        .map(|&layout| Timed::new(layout, &instants))
        .collect();
    let mut room = Room {
        decoded: room_for_instants(),
        counts: room_for_counts(),
        encoded: room_for_words(),
    };
    // All layouts in each round: what disturbs the machine for a second disturbs one round of each.
    for _ in 0..ROUNDS {
        for timed in &mut layouts {
            timed.round(&instants, &mut room);
        }
    }
    println!(
        "| layout | decoding: Rust | (its counts) | ours | ratio | encoding: Rust | ours | ratio |"
    );
    println!("|---|---|---|---|---|---|---|---|");
    for timed in &layouts {
        println!(
            "| {} | {:.1} | ({:.1}) | {:.1} | {:.2} | {:.1} | {:.1} | {:.2} |",
            timed.layout.number(),
            timed.rust_decodes.a_row(),
            timed.rust_counts.a_row(),
            timed.decodes.a_row(),
            timed.rust_decodes.a_row() / timed.decodes.a_row(),
            timed.rust_encodes.a_row(),
            timed.encodes.a_row(),
            timed.rust_encodes.a_row() / timed.encodes.a_row(),
        );
    }
}

/// Where results are written.
struct Room {
    decoded: Vec<u8>,
    counts: Vec<i128>,
    encoded: Vec<u8>,
}

/// A layout, the words of the instants in it, and the best times so far.
struct Timed {
    layout: Layout,
    words: Vec<u8>,
    rust_decodes: Best,
    rust_counts: Best,
    decodes: Best,
    rust_encodes: Best,
    encodes: Best,
}

impl Timed {
    fn new(layout: Layout, instants: &[u8]) -> Timed {
        Timed {
            layout,
            words: agreed::words(layout, instants),
            rust_decodes: Best::new(),
            rust_counts: Best::new(),
            decodes: Best::new(),
            rust_encodes: Best::new(),
            encodes: Best::new(),
        }
    }

    fn round(&mut self, instants: &[u8], room: &mut Room) {
        let codec = timeglyph::codec(self.layout.number().into());
        self.rust_decodes
            .time(|| rust_side::decode_column(codec, &self.words, &mut room.decoded));
        self.rust_counts
            .time(|| rust_side::decode_to_counts(codec, &self.words, &mut room.counts));
        self.decodes
            .time(|| decode_column(self.layout, &self.words, &mut room.decoded).rows());
        self.rust_encodes
            .time(|| rust_side::encode_column(codec, instants, &mut room.encoded));
        self.encodes
            .time(|| encode_column(self.layout, instants, &mut room.encoded).rows());
    }
}
