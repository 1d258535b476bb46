//! Where an operation stands in its array.

use std::num::NonZeroU8;

/// The position of an operation, from 0. It is kept one higher, so that even one that may be missing
/// takes a single byte.
#[derive(Clone, Copy, Debug, PartialEq, Eq)]
pub struct Position(NonZeroU8);

impl Position {
    pub fn new(index: usize) -> Position {
        Position(NonZeroU8::new(index as u8 + 1).expect("an array is short"))
    }

    pub fn index(self) -> usize {
        usize::from(self.0.get() - 1)
    }
}
