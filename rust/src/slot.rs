//! Room for results that a caller lends, and can't read before something is there.

#![allow(unsafe_code, reason = "filled slots are read as their values")]

use core::mem::MaybeUninit;

/// Room for one result. Nothing can be read from it: what is written there comes back in [`Done`](crate::Done).
///
/// Slots can be used again, for the next morning, say. What an earlier column left in them is not to be had either.
///
/// ```
/// # use sleetrick::{decode_words, Layout, Slot};
/// let words = vec![2_162_688; 1000];
/// let mut room = vec![Slot::EMPTY; words.len()];
/// let instants = decode_words(Layout::FatDos, &words, &mut room).all()?;
/// assert_eq!(instants[999].seconds(), 315_532_800);
/// # Ok::<(), sleetrick::Stopped>(())
/// ```
///
/// So a refused row can't be taken for an instant: this does not compile.
///
/// ```compile_fail,E0599
/// # use sleetrick::{decode_words, Layout, Slot};
/// let mut room = [Slot::EMPTY; 1];
/// let _ = decode_words(Layout::FatDos, &[2_162_718], &mut room);
/// let seed = room[0].seconds();
/// ```
///
/// Nor do the other ways to a value: a field, a comparison, printing, a conversion, a reference.
///
/// ```compile_fail,E0616
/// let seed = sleetrick::Slot::<sleetrick::Instant>::EMPTY.0;
/// ```
/// ```compile_fail,E0369
/// let same = sleetrick::Slot::<i64>::EMPTY == sleetrick::Slot::<i64>::EMPTY;
/// ```
/// ```compile_fail,E0277
/// println!("{:?}", sleetrick::Slot::<i64>::EMPTY);
/// ```
/// ```compile_fail,E0277
/// let seed: i64 = sleetrick::Slot::<i64>::EMPTY.into();
/// ```
/// ```compile_fail,E0614
/// let seed = *sleetrick::Slot::<i64>::EMPTY;
/// ```
#[derive(Clone, Copy)]
#[repr(transparent)]
pub struct Slot<T: Copy>(MaybeUninit<T>);

impl<T: Copy> Slot<T> {
    /// Room with nothing in it.
    pub const EMPTY: Slot<T> = Slot(MaybeUninit::uninit());
}

/// Slots that are being filled, from the first on.
pub(crate) struct Filling<'a, T: Copy> {
    slots: &'a mut [Slot<T>],
    filled: usize,
}

impl<'a, T: Copy> Filling<'a, T> {
    pub fn new(slots: &'a mut [Slot<T>]) -> Filling<'a, T> {
        Filling { slots, filled: 0 }
    }

    /// Fills the next slot.
    pub fn push(&mut self, value: T) {
        self.slots[self.filled] = Slot(MaybeUninit::new(value));
        self.filled += 1;
    }

    /// What was filled in.
    pub fn results(self) -> &'a [T] {
        let filled: &'a [Slot<T>] = &self.slots[..self.filled];
        // SAFETY: a slot is laid out as its value, and these have one: `push` put it there.
        unsafe { core::slice::from_raw_parts(filled.as_ptr().cast(), filled.len()) }
    }
}
