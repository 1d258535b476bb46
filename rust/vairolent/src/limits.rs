//! The service's limits, as `crates/model/specs/Limits.antt` has them.

/// Slots of a host, and so the most sets that are live at once.
pub const SETS: usize = 4;

/// The most semaphores of a set.
pub const SEMAPHORES: usize = 8;

/// The number of processes, which are numbered from 1 on.
pub const PROCESSES: usize = 8;

/// The most operations of one call.
pub const OPERATIONS: usize = 32;

/// The largest value of a semaphore; the smallest is 0.
pub const VALUE_MAX: u16 = 32_767;

/// The largest mode of a set: nine bits.
pub const MODE_MAX: u16 = 0o777;

/// The last time that can be told, in milliseconds: 2^63-1. The first is 0.
pub const TIME_MAX: u64 = i64::MAX as u64;
