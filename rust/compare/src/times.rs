//! Waits and times, drawn with an eye on the clock.

use second::TIME_MAX;

use crate::random::Rng;

/// Short waits mostly, none at all, the longest and any.
pub fn wait(rng: &mut Rng) -> u32 {
    match rng.below(10) {
        0 | 1 => 0,
        2 | 3 => 1,
        4 => u32::MAX,
        5 => rng.next() as u32,
        _ => rng.between(2, 9) as u32,
    }
}

/// A time at which a wait is over mostly, or beside it; or the present time, or soon after it.
pub fn time(rng: &mut Rng, now: u64, ends: &[u64]) -> u64 {
    let end = if ends.is_empty() { now } else { rng.pick(ends) };
    match rng.below(8) {
        0 => now,
        1 => now + rng.below(9) as u64,
        2 => end.saturating_sub(1),
        3 => end + 1,
        _ => end,
    }
}

/// A time before the present one, or above all that can be told.
pub fn refused(rng: &mut Rng, now: u64) -> u64 {
    let (some, any) = (rng.between(1, 9) as u64, rng.next());
    match rng.below(6) {
        0 => 0,
        1 => TIME_MAX + 1,
        2 => u64::MAX,
        3 => any | 1 << 63,
        4 => any % (now + 1),
        _ => now.saturating_sub(some),
    }
}
