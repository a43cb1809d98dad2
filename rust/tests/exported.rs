//! The calls of libsleetrick.a as any other language makes them: what the package's types keep from them, a bad layout number, bad
//! nanoseconds and lent bytes that are not one row; and every lent byte, after an answer and after a refusal.

#![allow(
    unsafe_code,
    reason = "it calls C's way, with the pointer and length of a slice that it lends"
)]

const FILLER: u8 = 0xAA;
const TOO_MANY: usize = sleetrick::MOST_ROWS + 1;

extern "C" {
    fn sleetrick_decode(layout: u32, word: i64, instant: *mut u8, length: usize) -> u64;
    fn sleetrick_encode(layout: u32, seconds: i64, nanos: u32, word: *mut u8, length: usize)
        -> u64;
    fn sleetrick_filetime_hilo(low: u32, high: u32, instant: *mut u8, length: usize) -> u64;
    fn sleetrick_vmsd(high: i32, low: i32, instant: *mut u8, length: usize) -> u64;
    fn sleetrick_unix_sec_nsec(seconds: i64, nanos: u32, instant: *mut u8, length: usize) -> u64;
    fn sleetrick_oracle_date(from: *const u8, bytes: usize, to: *mut u8, length: usize) -> u64;
    fn sleetrick_cp56time2a(from: *const u8, bytes: usize, to: *mut u8, length: usize) -> u64;
    fn sleetrick_udf(from: *const u8, bytes: usize, to: *mut u8, length: usize) -> u64;
    fn sleetrick_decode_column(
        layout: u32,
        words: *const u8,
        words_length: usize,
        instants: *mut u8,
        instants_length: usize,
    ) -> u64;
    fn sleetrick_encode_column(
        layout: u32,
        instants: *const u8,
        instants_length: usize,
        words: *mut u8,
        words_length: usize,
    ) -> u64;
}

/// A call on a row of lent bytes.
type Call<'a> = &'a dyn Fn(*mut u8, usize) -> u64;

/// A call by its name, and what it writes to a row.
type Good<'a> = (&'a str, Call<'a>, &'a [u8]);

/// Makes a call on so many bytes of filler, between others that it may not touch: its number, and those bytes.
fn called(call: Call, length: usize) -> (u64, Vec<u8>) {
    let mut bytes = vec![FILLER; length + 64];
    let number = call(bytes[32..].as_mut_ptr(), length);
    assert!(bytes[..32].iter().all(|&byte| byte == FILLER));
    assert!(bytes[32 + length..].iter().all(|&byte| byte == FILLER));
    (number, bytes[32..32 + length].to_vec())
}

/// A call that has a result answers 0 on its row and writes all of it. On fewer bytes, or more, it answers 11 and writes nothing.
fn gives((name, call, row): Good) {
    assert_eq!(called(call, row.len()), (0, row.to_vec()), "{name}");
    for length in (0..64).filter(|&length| length != row.len()) {
        assert_eq!(called(call, length), (11, vec![FILLER; length]), "{name}");
    }
}

/// A call that has none answers its number and writes nothing; 11 comes before it.
fn refuses(number: u64, row: usize, call: Call) {
    assert_eq!(called(call, row), (number, vec![FILLER; row]));
    for length in [0, row - 1, row + 1, 2 * row] {
        assert_eq!(called(call, length), (11, vec![FILLER; length]));
    }
}

fn instant(seconds: i64, nanos: u32) -> Vec<u8> {
    [&seconds.to_le_bytes()[..], &nanos.to_le_bytes()[..]].concat()
}

#[test]
fn what_is_right_is_written() {
    let oracle = [120_u8, 100, 1, 1, 1, 1, 1];
    let cp56 = [0x5F_u8, 0xEA, 0, 0, 1, 1, 0];
    let udf = [0x01_u8, 0x08, 0xD0, 0x07, 1, 1, 0, 0, 0, 0, 0, 0];
    let tick = instant(-2_208_902_401, 996_666_666);
    let calls: [Good; 8] = [
        (
            "decode",
            &|to, length| unsafe { sleetrick_decode(16, 25_919_999, to, length) },
            &tick,
        ),
        (
            "encode",
            &|to, length| unsafe { sleetrick_encode(16, -2_208_902_401, 998_333_334, to, length) },
            &4_294_967_296_i64.to_le_bytes(),
        ),
        (
            "filetime_hilo",
            &|to, length| unsafe { sleetrick_filetime_hilo(1, 0, to, length) },
            &instant(-11_644_473_600, 100),
        ),
        (
            "vmsd",
            &|to, length| unsafe { sleetrick_vmsd(-1, -1, to, length) },
            &instant(-1, 999_999_000),
        ),
        (
            "unix_sec_nsec",
            &|to, length| unsafe { sleetrick_unix_sec_nsec(-1, 4_000_000_007, to, length) },
            &instant(3, 7),
        ),
        (
            "oracle_date",
            &|to, length| unsafe { sleetrick_oracle_date(oracle.as_ptr(), 7, to, length) },
            &instant(946_684_800, 0),
        ),
        (
            "cp56time2a",
            &|to, length| unsafe { sleetrick_cp56time2a(cp56.as_ptr(), 7, to, length) },
            &instant(946_684_859, 999_000_000),
        ),
        (
            "udf",
            &|to, length| unsafe { sleetrick_udf(udf.as_ptr(), 12, to, length) },
            &instant(946_684_800, 0),
        ),
    ];
    calls.into_iter().for_each(gives);
}

#[test]
fn what_is_refused_writes_nothing() {
    for layout in [0, 17, 256 + 1, u32::MAX] {
        refuses(1, 12, &|to, length| unsafe {
            sleetrick_decode(layout, -1, to, length)
        });
        refuses(1, 8, &|to, length| unsafe {
            sleetrick_encode(layout, i64::MAX, u32::MAX, to, length)
        });
    }
    for (number, layout, word) in [
        (2, 1, -1),
        (3, 1, 2_162_718),
        (4, 14, 0x00_10_10_00_00_00_A0),
        (5, 16, 25_920_000),
    ] {
        refuses(number, 12, &|to, length| unsafe {
            sleetrick_decode(layout, word, to, length)
        });
    }
    for (number, layout, seconds, nanos) in [
        (9, 1, i64::MAX, 1_000_000_000),
        (6, 1, i64::MAX, 0),
        (7, 1, 0, 0),
        (8, 15, 2_524_608_001, 0),
    ] {
        refuses(number, 8, &|to, length| unsafe {
            sleetrick_encode(layout, seconds, nanos, to, length)
        });
    }
    refuses(2, 12, &|to, length| unsafe {
        sleetrick_filetime_hilo(0, 1 << 31, to, length)
    });
    refuses(12, 12, &|to, length| unsafe {
        sleetrick_unix_sec_nsec(i64::MAX, 1_000_000_000, to, length)
    });
    let zeros = [0_u8; 16];
    for (number, bytes) in [(3, 7), (10, 0), (10, 6), (10, 8)] {
        refuses(number, 12, &|to, length| unsafe {
            sleetrick_oracle_date(zeros.as_ptr(), bytes, to, length)
        });
        refuses(number, 12, &|to, length| unsafe {
            sleetrick_cp56time2a(zeros.as_ptr(), bytes, to, length)
        });
    }
    for (number, bytes) in [(3, 12), (10, 0), (10, 11), (10, 13)] {
        refuses(number, 12, &|to, length| unsafe {
            sleetrick_udf(zeros.as_ptr(), bytes, to, length)
        });
    }
}

/// The package's types keep the layout number from being wrong: it comes behind 11 and 13, and before the rows.
#[test]
fn a_layout_number_of_a_column() {
    let decode = |layout, words: usize, instants: usize| {
        let words = vec![0; words];
        let call: Call = &|to, length| unsafe {
            sleetrick_decode_column(layout, words.as_ptr(), words.len(), to, length)
        };
        let (number, left) = called(call, instants);
        assert_eq!(left, vec![FILLER; instants]);
        number
    };
    let encode = |layout, instants: usize, words: usize| {
        let instants = vec![0; instants];
        let call: Call = &|to, length| unsafe {
            sleetrick_encode_column(layout, instants.as_ptr(), instants.len(), to, length)
        };
        let (number, left) = called(call, words);
        assert_eq!(left, vec![FILLER; words]);
        number
    };
    for layout in [0, 17, 256 + 1, u32::MAX] {
        assert_eq!((decode(layout, 0, 0), encode(layout, 0, 0)), (1, 1));
        assert_eq!((decode(layout, 8, 12), encode(layout, 12, 8)), (1, 1));
        assert_eq!((decode(layout, 8, 11), encode(layout, 12, 9)), (11, 11));
    }
    assert_eq!(decode(17, TOO_MANY * 8, TOO_MANY * 12), 13);
    assert_eq!(encode(17, TOO_MANY * 12, TOO_MANY * 8), 13);
    assert_eq!(decode(17, TOO_MANY * 8, TOO_MANY * 12 - 12), 11);
}
