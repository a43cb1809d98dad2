//! The two sides' answers, compared in every row before anything is timed.

use crate::rows::{room_for_instants, room_for_words, ROWS};
use crate::rust_side;
use sleetrick::Layout;

/// The words of the instants, where both sides have the same in every row, and decode them to the same instants.
pub fn words(layout: Layout, instants: &[u8]) -> Vec<u8> {
    let codec = timeglyph::codec(layout.number().into());

    let (mut rust, mut ours) = (room_for_words(), room_for_words());
    let rows = rust_side::encode_column(codec, instants, &mut rust);
    let done = sleetrick::encode_column(layout, instants, &mut ours);
    assert_eq!(rows, ROWS, "{layout:?}: the Rust refuses a row");
    assert!(done.all() == Ok(&rust), "{layout:?}: words differ");
    let words = rust;

    let (mut rust, mut ours) = (room_for_instants(), room_for_instants());
    let rows = rust_side::decode_column(codec, &words, &mut rust);
    let done = sleetrick::decode_column(layout, &words, &mut ours);
    assert_eq!(rows, ROWS, "{layout:?}: the Rust refuses a row");
    assert!(done.all() == Ok(&rust), "{layout:?}: instants differ");
    words
}
