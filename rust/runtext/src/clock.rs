//! The clock in words: why a time is refused, and after how long a sleeper gave up.

use crate::codes::GAVE_UP;

/// The largest time, in milliseconds.
const TIME_MAX: u64 = (1 << 63) - 1;

/// Why a time is refused, where the one told last is known. Nothing is said where it leads
/// elsewhere.
pub fn why_refused(time: u64, last: u64) -> Option<String> {
    if time > TIME_MAX {
        Some(format!("it is above {TIME_MAX} ms, the largest time"))
    } else if time < last {
        Some(format!("it is before {last} ms, the time told last"))
    } else {
        None
    }
}

/// When a wait that began at this time is over; the sum is exact.
pub fn end(start: u64, wait: u32) -> u128 {
    u128::from(start) + u128::from(wait)
}

/// After how long a sleeper gave up, at the event that told this time. Nothing is said where its
/// wait wasn't over.
pub fn gave_up(start: u64, wait: u32, time: u64) -> Option<String> {
    let (end, time) = (end(start, wait), u128::from(time));
    if end > time {
        return None;
    }
    let mut words = format!("{GAVE_UP} after {wait} ms");
    if end < time {
        words += &format!(", over at {end} ms and told at {time} ms");
    }
    Some(words)
}

#[cfg(test)]
mod tests {
    use super::*;

    #[test]
    fn times_that_are_refused() {
        let largest = "it is above 9223372036854775807 ms, the largest time";
        assert_eq!(why_refused(1 << 63, 0).as_deref(), Some(largest));
        assert_eq!(why_refused(u64::MAX, TIME_MAX).as_deref(), Some(largest));
        let before = "it is before 1000 ms, the time told last";
        assert_eq!(why_refused(999, 1_000).as_deref(), Some(before));
        for (time, last) in [(1_000, 1_000), (1_001, 1_000), (TIME_MAX, 0)] {
            assert_eq!(why_refused(time, last), None);
        }
    }

    #[test]
    fn waits_that_are_over() {
        assert_eq!(gave_up(1_000, 250, 1_249), None);
        assert_eq!(gave_up(1_000, 250, 1_250).as_deref(), Some("gave up waiting after 250 ms"));
        let late = "gave up waiting after 250 ms, over at 1250 ms and told at 1251 ms";
        assert_eq!(gave_up(1_000, 250, 1_251).as_deref(), Some(late));
    }

    /// The sums are neither wrapped nor cut.
    #[test]
    fn the_largest_waits() {
        assert_eq!(gave_up(TIME_MAX, u32::MAX, TIME_MAX), None);
        assert_eq!(gave_up(u64::MAX, u32::MAX, u64::MAX), None);
        let wanted = "gave up waiting after 4294967295 ms";
        assert_eq!(gave_up(0, u32::MAX, 4_294_967_295).as_deref(), Some(wanted));
        let start = TIME_MAX - u64::from(u32::MAX);
        assert_eq!(gave_up(start, u32::MAX, TIME_MAX).as_deref(), Some(wanted));
        assert_eq!(end(u64::MAX, u32::MAX), 18_446_744_078_004_518_910);
    }
}
