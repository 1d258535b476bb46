//! The fields that events are made of.

use crate::operation::Operation;

/// A field, by what it holds, and where its value lies.
pub enum Field<'a> {
    Count(&'a mut u8),
    Process(&'a mut u8),
    Identifier(&'a mut i32),
    /// The number of a semaphore.
    Number(&'a mut u16),
    Value(&'a mut i32),
    /// The values of a whole set.
    Values(&'a mut Vec<i32>),
    Mode(&'a mut u16),
    User(&'a mut u32),
    Group(&'a mut u32),
    /// Milliseconds; a call without a wait has no such field in its body.
    Wait(&'a mut Option<u32>),
    /// Milliseconds.
    Time(&'a mut u64),
    Operations(&'a mut Vec<Operation>),
}
