//! The functions of libvairolent.a, and what they take and give, in the platform's C convention.
//! They are the exports of `crates/vairolent/src/lib.rt`, where their promises stand.
//!
//! Each event has one premise: the row and the adjustments are those of a fresh host, or as the
//! last event left them. Nothing checks it at run time.

use std::mem::size_of;

use crate::limits::{MODE_MAX, OPERATIONS, PROCESSES, SEMAPHORES, SETS, VALUE_MAX};

/// All that a host holds but the adjustments.
pub type Row = [u8; 1_917];

/// The undo adjustments, of each process for each semaphore.
pub type Adjustments = [i16; PROCESSES * SETS * SEMAPHORES];

/// The operation of an array that decided, by its position from 0; or that none did.
#[repr(C)]
#[derive(Clone, Copy, Default)]
pub struct Position {
    /// A bool of C, taken as the byte that it is.
    there: u8,
    at: u8,
}

impl Position {
    pub fn get(self) -> Option<usize> {
        (self.there != 0).then(|| usize::from(self.at))
    }
}

/// A sleeper that an event ended.
#[repr(C)]
#[derive(Clone, Copy, Default)]
pub struct Woken {
    pub process: u8,
    pub code: u8,
    pub position: Position,
}

/// The wakings of an event, with zeros behind them.
pub type List = [Woken; PROCESSES];

/// A fresh host.
#[repr(C)]
pub struct Fresh {
    pub row: Row,
    pub adjustments: Adjustments,
    _wakings: List,
}

/// What an event tells, beside the wakings in its list.
#[repr(C)]
pub struct Told {
    pub code: i32,
    pub value: u32,
    pub looks: usize,
    pub woken: usize,
    pub position: Position,
}

// As they are in C, where the archive writes them.
const _: () = assert!(size_of::<List>() == 32 && size_of::<Told>() == 32);

/// What a query answers. Its looks are 0.
#[repr(C)]
pub struct Queried {
    pub code: i32,
    pub value: u16,
    pub last: u8,
    pub increase: u32,
    pub zero: u32,
    pub increase_mask: u8,
    pub zero_mask: u8,
    _looks: u32,
}

/// What a whole set shows, by the number of a semaphore.
#[repr(C)]
pub struct QueriedSet {
    pub code: i32,
    pub count: u8,
    pub judged: u32,
    pub values: [u16; SEMAPHORES],
    pub lasts: [u8; SEMAPHORES],
    pub increase: [u32; SEMAPHORES],
    pub zero: [u32; SEMAPHORES],
    pub increase_masks: [u8; SEMAPHORES],
    pub zero_masks: [u8; SEMAPHORES],
}

/// What the archive was built for.
#[repr(C)]
#[derive(Debug, PartialEq, Eq)]
pub struct Limits {
    pub sets: usize,
    pub semaphores: usize,
    pub processes: usize,
    pub operations: usize,
    pub value_max: usize,
    pub mode_max: usize,
    pub row_bytes: usize,
    pub adjustments: usize,
}

/// What this package was built for.
pub const LIMITS: Limits = Limits {
    sets: SETS,
    semaphores: SEMAPHORES,
    processes: PROCESSES,
    operations: OPERATIONS,
    value_max: VALUE_MAX as usize,
    mode_max: MODE_MAX as usize,
    row_bytes: size_of::<Row>(),
    adjustments: size_of::<Adjustments>() / size_of::<i16>(),
};

extern "C" {
    pub fn vairolent_limits() -> Limits;

    pub fn vairolent_fresh() -> Fresh;

    pub fn vairolent_create_in(
        row: &mut Row,
        adjustments: &mut Adjustments,
        wakings: &mut List,
        process: u8,
        count: u8,
        mode: u16,
    ) -> Told;

    /// The operations are so many bytes, six for each. The wait is in milliseconds, if there is one.
    pub fn vairolent_operate_in(
        row: &mut Row,
        adjustments: &mut Adjustments,
        wakings: &mut List,
        process: u8,
        identifier: i32,
        waits: bool,
        wait: u32,
        operations: *const u8,
        bytes: usize,
    ) -> Told;

    pub fn vairolent_set_value_in(
        row: &mut Row,
        adjustments: &mut Adjustments,
        wakings: &mut List,
        process: u8,
        identifier: i32,
        number: u16,
        value: i32,
    ) -> Told;

    /// The values are so many bytes, four for each, little-endian and signed.
    pub fn vairolent_set_all_in(
        row: &mut Row,
        adjustments: &mut Adjustments,
        wakings: &mut List,
        process: u8,
        identifier: i32,
        values: *const u8,
        bytes: usize,
    ) -> Told;

    pub fn vairolent_remove_in(
        row: &mut Row,
        adjustments: &mut Adjustments,
        wakings: &mut List,
        process: u8,
        identifier: i32,
    ) -> Told;

    pub fn vairolent_signal_in(
        row: &mut Row,
        adjustments: &mut Adjustments,
        wakings: &mut List,
        process: u8,
    ) -> Told;

    pub fn vairolent_exit_in(
        row: &mut Row,
        adjustments: &mut Adjustments,
        wakings: &mut List,
        process: u8,
    ) -> Told;

    pub fn vairolent_clock_in(
        row: &mut Row,
        adjustments: &mut Adjustments,
        wakings: &mut List,
        time: u64,
    ) -> Told;

    pub fn vairolent_act_as_in(
        row: &mut Row,
        adjustments: &mut Adjustments,
        wakings: &mut List,
        process: u8,
        user: u32,
        group: u32,
    ) -> Told;

    pub fn vairolent_query_in(
        row: &Row,
        adjustments: &Adjustments,
        process: u8,
        identifier: i32,
        number: u16,
    ) -> Queried;

    pub fn vairolent_query_set_in(
        row: &Row,
        adjustments: &Adjustments,
        process: u8,
        identifier: i32,
    ) -> QueriedSet;
}

#[cfg(test)]
mod tests {
    use super::*;

    #[test]
    fn the_limits_and_sizes_are_those_of_the_archive() {
        // SAFETY: it takes nothing, and has no premise.
        assert_eq!(unsafe { vairolent_limits() }, LIMITS);
    }

    #[test]
    fn a_position_is_there_or_not() {
        assert_eq!(Position::default().get(), None);
        assert_eq!(Position { there: 0, at: 7 }.get(), None);
        assert_eq!(Position { there: 1, at: 0 }.get(), Some(0));
        assert_eq!(Position { there: 1, at: 7 }.get(), Some(7));
    }
}
