//! What the types promise: the order of instants, the words of refusals, and what can be made and what not.

use crate::columns::instant as at;
use sleetrick::{
    decode, decode_column, decode_words, encode, encode_instants, udf, unix_sec_nsec, Instant,
    Layout, Reason, Refusal, Slot, MOST_ROWS,
};
use std::error::Error;
use std::mem::{align_of, size_of};

/// A simulator takes the least instant for its seed: seconds decide, and then nanoseconds.
#[test]
fn instants_lie_in_the_order_of_time() {
    let in_order = [
        at(i64::MIN, 0),
        at(i64::MIN, 999_999_999),
        at(-2, 999_999_999),
        at(-1, 0),
        at(-1, 1),
        at(0, 0),
        at(0, 999_999_999),
        at(1, 0),
        at(i64::MAX, 0),
        at(i64::MAX, 1),
    ];
    for (i, a) in in_order.iter().enumerate() {
        for (j, b) in in_order.iter().enumerate() {
            assert_eq!(a.cmp(b), i.cmp(&j), "{a:?} {b:?}");
            assert_eq!(a == b, i == j, "{a:?} {b:?}");
        }
    }
    let mut turned: Vec<Instant> = in_order.iter().rev().copied().collect();
    assert_eq!(turned.iter().min(), in_order.first());
    turned.sort();
    assert_eq!(turned, in_order);
}

/// A refusal of each reason, by a call that gives it.
fn refusals() -> [Refusal; 13] {
    let column = |words: usize, instants: usize| {
        let mut instants = vec![0; instants];
        let done = decode_column(Layout::FatDos, &vec![0; words], &mut instants);
        done.refusal().expect("refused")
    };
    let too_many = MOST_ROWS + 1;
    [
        Layout::try_from(0).unwrap_err(),
        decode(Layout::FatDos, -1).unwrap_err(),
        decode(Layout::FatDos, 0).unwrap_err(),
        decode(Layout::Gsm, 0x00_10_10_00_00_00_A0).unwrap_err(),
        decode(Layout::SqlServer, -1).unwrap_err(),
        encode(Layout::FatDos, at(i64::MAX, 0)).unwrap_err(),
        encode(Layout::FatDos, at(0, 0)).unwrap_err(),
        encode(Layout::NokiaLe, at(i64::MAX, 0)).unwrap_err(),
        Instant::new(0, 1_000_000_000).unwrap_err(),
        udf(&[]).unwrap_err(),
        column(8, 11),
        unix_sec_nsec(i64::MAX, 1_000_000_000).unwrap_err(),
        column(too_many * 8, too_many * 12),
    ]
}

#[test]
fn every_refusal_says_what_it_is() {
    let reasons = [
        Reason::Layout,
        Reason::Range,
        Reason::Fields,
        Reason::Zone,
        Reason::Ticks,
        Reason::Window,
        Reason::Year,
        Reason::Count,
        Reason::Nanos,
        Reason::Length,
        Reason::Rows,
        Reason::Carry,
        Reason::Column,
    ];
    let texts = [
        "there is no layout of this number",
        "the word is outside its layout's range, or the FILETIME has its top bit set",
        "the fields are no date and time, or lie outside the calendar",
        "the quarter hours of the zone have a digit above 9",
        "the ticks of the day are a day or more",
        "the instant is outside the calendar",
        "the layout has no room for the instant's year",
        "the layout counts from an epoch and has no room for the count",
        "the nanoseconds are above 999,999,999",
        "the stamp has not as many bytes as its kind",
        "there is not room for exactly as many results as there are rows",
        "the seconds do not fit 64 bits",
        "the column has more than 1,048,576 rows",
    ];
    for (number, ((refusal, reason), text)) in
        (1..).zip(refusals().into_iter().zip(reasons).zip(texts))
    {
        assert_eq!(refusal.reason(), reason);
        assert_eq!((refusal.number(), reason.number()), (number, number));
        let said = refusal.to_string();
        assert!(
            said.starts_with(&format!("refused {number}: {text}")),
            "{said}"
        );
    }
}

#[test]
fn errors_are_errors() {
    let mut room = [Slot::EMPTY; 3];
    let instants = [at(315_532_800, 0), at(315_532_800, 0), at(0, 0)];
    let stopped = encode_instants(Layout::FatDos, &instants, &mut room)
        .all()
        .unwrap_err();
    let stopped: Box<dyn Error + Send + Sync> = Box::new(stopped);
    assert_eq!(
        stopped.to_string(),
        "stopped at row 2, counted from 0: refused 7"
    );
    let source = stopped.source().expect("a refusal");
    assert!(source.to_string().starts_with("refused 7: "));
    assert!(source.source().is_none());
}

#[test]
fn a_refused_row_and_a_refused_whole() {
    let mut room = [Slot::EMPTY; 2];
    let done = decode_words(Layout::FatDos, &[0, 0], &mut room);
    assert_eq!((done.rows(), done.refused_row()), (0, Some(0)));
    assert_eq!(done.all().unwrap_err().refused_row(), Some(0));
    let done = decode_words(Layout::FatDos, &[0], &mut room);
    assert_eq!((done.rows(), done.refused_row()), (0, None));
    let stopped = done.all().unwrap_err();
    assert_eq!(stopped.refused_row(), None);
    assert_eq!(stopped.to_string(), "the column as a whole: refused 11");
    let done = decode_words(Layout::FatDos, &[2_162_688; 2], &mut room);
    assert_eq!((done.rows(), done.refused_row()), (2, None));
}

#[test]
fn sixteen_layouts() {
    assert_eq!(Layout::ALL.len(), 16);
    for (number, &layout) in (1..).zip(Layout::ALL) {
        assert_eq!((layout.number(), u32::from(layout)), (number, number));
        assert_eq!(Layout::try_from(number), Ok(layout));
    }
    for number in [0, 17, 257, u32::MAX] {
        let refused = Layout::try_from(number).map_err(Refusal::reason);
        assert_eq!(refused, Err(Reason::Layout), "{number}");
    }
}

#[test]
fn an_instant_is_good() {
    for nanos in [0, 1, 999_999_999] {
        let instant = at(i64::MIN, nanos);
        assert_eq!((instant.seconds(), instant.nanos()), (i64::MIN, nanos));
    }
    for nanos in [1_000_000_000, u32::MAX] {
        let refused = Instant::new(0, nanos).map_err(Refusal::reason);
        assert_eq!(refused, Err(Reason::Nanos), "{nanos}");
    }
    assert_eq!(Instant::at_second(-1), at(-1, 0));
}

/// The package reads filled slots as a slice of their values.
#[test]
fn a_slot_is_laid_out_as_its_value() {
    assert_eq!(size_of::<Slot<Instant>>(), size_of::<Instant>());
    assert_eq!(align_of::<Slot<Instant>>(), align_of::<Instant>());
    assert_eq!(size_of::<Slot<i64>>(), size_of::<i64>());
    assert_eq!(align_of::<Slot<i64>>(), align_of::<i64>());
}
