//! Calls that may panic, on either side: a panic is an answer to be reported, and no end of the comparison.

use std::cell::Cell;
use std::panic::{self, AssertUnwindSafe};

thread_local! {
    static GUARDED: Cell<bool> = const { Cell::new(false) };
}

/// Keeps the panics of guarded calls from being told as they happen.
pub fn keep_quiet() {
    let tell = panic::take_hook();
    panic::set_hook(Box::new(move |panic| {
        if !GUARDED.get() {
            tell(panic);
        }
    }));
}

/// What the call answers; nothing where it panics.
pub fn guarded<T>(call: impl FnOnce() -> T) -> Option<T> {
    GUARDED.set(true);
    let answer = panic::catch_unwind(AssertUnwindSafe(call));
    GUARDED.set(false);
    answer.ok()
}
