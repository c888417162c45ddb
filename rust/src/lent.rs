//! Memory lent to a call, with guards on both sides that must hold afterwards what they held.

use std::hint::black_box;

use crate::answers::Nodes;
use crate::rng::Rng;

/// Guard bytes, or guard words, on each side of what is lent.
const GUARD: usize = 16;

/// The guard bytes of a single value: neighbours differ, and none is zero.
const FENCE: [u8; GUARD] = {
    let mut fence = [0; GUARD];
    let mut place = 0;
    while place < GUARD {
        fence[place] = (place * 37 % 251) as u8 + 1;
        place += 1;
    }
    fence
};

/// A lent value between guard bytes.
#[repr(C)]
pub struct Guarded<T> {
    before: [u8; GUARD],
    value: T,
    after: [u8; GUARD],
}

impl<T: Clone> Guarded<T> {
    pub fn new(value: T) -> Guarded<T> {
        Guarded {
            before: FENCE,
            value,
            after: FENCE,
        }
    }

    /// The place to lend.
    pub fn place(&mut self) -> *mut T {
        let cell = black_box(self);
        &mut cell.value
    }

    /// The value after the call; the bytes around it must be as they were.
    pub fn take(&mut self) -> T {
        let cell = black_box(self);
        assert!(
            cell.before == FENCE && cell.after == FENCE,
            "a call wrote beside a lent value"
        );
        cell.value.clone()
    }
}

/// What lent rows are made of: the bytes of a plan, rooms, the numbers of windows, cuts or near sides.
pub trait Word: Copy + PartialEq {
    /// A guard word, by its place below `GUARD`: neighbours differ, and none is zero.
    fn guard(place: usize) -> Self;
}

impl Word for u8 {
    fn guard(place: usize) -> u8 {
        FENCE[place]
    }
}

impl Word for u16 {
    fn guard(place: usize) -> u16 {
        (place as u16 + 1).wrapping_mul(0x9E37)
    }
}

impl Word for u64 {
    fn guard(place: usize) -> u64 {
        (place as u64 + 1).wrapping_mul(0x9E37_79B9_7F4A_7C15)
    }
}

/// Lent rows between guard words. Right behind the rows may stand others that are not lent.
pub struct Rows<T> {
    memory: Vec<T>,
}

impl<T: Word> Rows<T> {
    pub fn new(content: &[T]) -> Rows<T> {
        Rows::before(content, &[])
    }

    /// Rows with the words of `beyond` right behind them.
    pub fn before(content: &[T], beyond: &[T]) -> Rows<T> {
        let mut memory = Vec::with_capacity(content.len() + beyond.len() + 2 * GUARD);
        memory.extend((0..GUARD).map(T::guard));
        memory.extend(content);
        memory.extend(beyond);
        memory.extend((0..GUARD).map(T::guard));
        Rows { memory }
    }

    /// The place to lend. The pointer reaches all of the memory, so that a stray write is seen and
    /// not assumed away.
    pub fn place(&mut self) -> *mut T {
        black_box(&mut self.memory).as_mut_ptr().wrapping_add(GUARD)
    }

    /// The rows after the call, and what stands behind them; the guards must be as they were.
    pub fn take(&mut self) -> &[T] {
        let memory = black_box(&mut self.memory);
        let after = memory.len() - GUARD;
        let whole = |guard: &[T]| (0..GUARD).all(|place| guard[place] == T::guard(place));
        assert!(
            whole(&memory[..GUARD]) && whole(&memory[after..]),
            "a call wrote beside lent rows"
        );
        &memory[GUARD..after]
    }
}

/// So many cut rows and side rows that hold anything.
pub fn stale_rows(rng: &mut Rng, cuts: usize, sides: usize) -> (Vec<u64>, Vec<Nodes>) {
    (
        stale(rng, cuts),
        (0..sides).map(|_| rng.draw() as Nodes).collect(),
    )
}

/// So many rows for sets of cables that hold anything.
pub fn stale(rng: &mut Rng, rows: usize) -> Vec<u64> {
    (0..rows).map(|_| rng.draw()).collect()
}
