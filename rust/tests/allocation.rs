//! No function of the package allocates: this program's allocator counts.

#![allow(unsafe_code, reason = "an allocator is unsafe to be")]

use sleetrick::{
    cp56time2a, decode, decode_column, decode_words, encode, encode_column, encode_instants,
    filetime_hilo, oracle_date, udf, unix_sec_nsec, vmsd, Instant, Layout, Slot,
};
use std::alloc::{self, GlobalAlloc, System};
use std::cell::Cell;

const ROWS: usize = 1_000;

struct Counting;

#[global_allocator]
static ALLOCATOR: Counting = Counting;

thread_local! {
    static ALLOCATIONS: Cell<usize> = const { Cell::new(0) };
}

// SAFETY: the system's allocator does it all; `realloc` comes here by its default, which allocates anew.
unsafe impl GlobalAlloc for Counting {
    unsafe fn alloc(&self, layout: alloc::Layout) -> *mut u8 {
        ALLOCATIONS.set(ALLOCATIONS.get() + 1);
        System.alloc(layout)
    }

    unsafe fn dealloc(&self, pointer: *mut u8, layout: alloc::Layout) {
        System.dealloc(pointer, layout);
    }
}

/// How often a call allocates on this thread.
fn allocations(call: impl FnOnce()) -> usize {
    let before = ALLOCATIONS.get();
    call();
    ALLOCATIONS.get() - before
}

#[test]
fn none() {
    let instant = Instant::at_second(1_794_812_282);
    let instants = vec![instant; ROWS];
    let mut rooms = (vec![Slot::EMPTY; ROWS], vec![Slot::EMPTY; ROWS]);
    let mut bytes = (vec![0; ROWS * 8], vec![0; ROWS * 12]);
    assert_eq!(allocations(|| drop(vec![0; ROWS])), 1);
    for &layout in Layout::ALL {
        let seen = allocations(|| {
            let word = encode(layout, instant).unwrap_or(0);
            let _ = decode(layout, word);
            let words = encode_instants(layout, &instants, &mut rooms.0).results();
            let _ = decode_words(layout, words, &mut rooms.1[..words.len()]);
            let _ = decode_column(layout, &bytes.0, &mut bytes.1);
            let _ = encode_column(layout, &bytes.1, &mut bytes.0);
        });
        assert_eq!(seen, 0, "{layout:?}");
    }
    for stamp in [[0xFF; 12], [1; 12]] {
        let seen = allocations(|| {
            let _ = filetime_hilo(1, u32::from(stamp[0]) << 24);
            let _ = vmsd(1, -1);
            let _ = unix_sec_nsec(i64::MAX, u32::from(stamp[0]) << 24);
            let _ = oracle_date(&stamp[..7]);
            let _ = cp56time2a(&stamp[..7]);
            let _ = udf(&stamp);
        });
        assert_eq!(seen, 0);
    }
}
