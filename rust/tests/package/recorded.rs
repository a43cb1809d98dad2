//! The recorded answers of every layout, on words and instants: one by one, and as columns.

use crate::columns::{row, Column};
use crate::list::{recorded, Question};
use sleetrick::{decode, decode_column, encode, encode_column, Instant, Layout, Refusal};

const FILLER: u8 = 0xAA;

#[test]
fn the_list_is_whole() {
    let list = recorded();
    assert_eq!(list.left_out, 690);
    assert_eq!(list.words.len() + list.instants.len(), 35_829 - 690);
}

#[test]
fn one_by_one() {
    let list = recorded();
    for asked in list.words {
        let word = i64::from_le_bytes(asked.row);
        let decoded = Layout::try_from(asked.layout)
            .and_then(|layout| decode(layout, word))
            .map(|instant| row(instant.seconds(), instant.nanos()))
            .map_err(Refusal::number);
        assert_eq!(decoded, asked.answer, "d {} {word}", asked.layout);
    }
    for asked in list.instants {
        let (seconds, nanos) = asked.row.split_at(8);
        let seconds = i64::from_le_bytes(seconds.try_into().unwrap());
        let nanos = u32::from_le_bytes(nanos.try_into().unwrap());
        let encoded = Layout::try_from(asked.layout)
            .and_then(|layout| encode(layout, Instant::new(seconds, nanos)?))
            .map(i64::to_le_bytes)
            .map_err(Refusal::number);
        assert_eq!(
            encoded, asked.answer,
            "e {} {seconds} {nanos}",
            asked.layout
        );
    }
}

#[test]
fn as_columns() {
    let list = recorded();
    for &layout in Layout::ALL {
        as_column(decode_column, layout, &list.words);
        as_column(encode_column, layout, &list.instants);
    }
}

/// A column of all rows of a layout, which goes on behind each refusal. Refused rows keep their filler.
fn as_column<const IN: usize, const OUT: usize>(
    column: Column,
    layout: Layout,
    list: &[Question<IN, OUT>],
) {
    let questions: Vec<_> = list
        .iter()
        .filter(|asked| asked.layout == layout.number())
        .collect();
    assert!(questions.len() > 800);
    let input: Vec<u8> = questions.iter().flat_map(|asked| asked.row).collect();
    let mut output = vec![FILLER; questions.len() * OUT];
    let mut row = 0;
    while row < questions.len() {
        let done = column(layout, &input[row * IN..], &mut output[row * OUT..]);
        row += done.rows();
        if let Some(refusal) = done.refusal() {
            assert_eq!(questions[row].answer, Err(refusal.number()));
            row += 1;
        }
    }
    for (row, asked) in output.chunks_exact(OUT).zip(questions) {
        assert_eq!(row, asked.answer.unwrap_or([FILLER; OUT]));
    }
}
