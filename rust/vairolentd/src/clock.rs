//! The time that the service is told: milliseconds since the daemon began.

use std::time::{Duration, Instant, SystemTime, UNIX_EPOCH};

pub struct Clock {
    began: Instant,
}

impl Clock {
    pub fn new() -> Clock {
        Clock { began: Instant::now() }
    }

    /// The present time: whole milliseconds, and how much has gone by since the last whole one.
    pub fn now(&self) -> (u64, Duration) {
        split(self.began.elapsed())
    }

    /// How long it is until this time; nothing if it is here.
    pub fn until(&self, time: u64) -> Duration {
        Duration::from_millis(time).saturating_sub(self.began.elapsed())
    }
}

fn split(time: Duration) -> (u64, Duration) {
    (time.as_millis() as u64, Duration::from_nanos(u64::from(time.subsec_nanos() % 1_000_000)))
}

/// A wait in milliseconds for one in nanoseconds that begins so long behind the time told last: it
/// is never shorter, and 0 stays 0. One that is longer than the service can say has no end.
pub fn wait(nanoseconds: u64, behind: Duration) -> Option<u32> {
    if nanoseconds == 0 {
        return Some(0);
    }
    let whole = u128::from(nanoseconds) + behind.as_nanos();
    u32::try_from((whole + 999_999) / 1_000_000).ok()
}

/// Seconds of the clock on the wall, as IPC_STAT shows them.
pub fn wall() -> u64 {
    SystemTime::now().duration_since(UNIX_EPOCH).map_or(0, |since| since.as_secs())
}

#[cfg(test)]
mod tests {
    use super::*;

    #[test]
    fn a_wait_is_never_shorter() {
        let none = Duration::ZERO;
        let most = Duration::from_nanos(999_999);
        assert_eq!([wait(0, none), wait(0, most)], [Some(0), Some(0)]);
        assert_eq!([wait(1, none), wait(1_000_000, none)], [Some(1), Some(1)]);
        assert_eq!([wait(1, most), wait(2, most)], [Some(1), Some(2)]);
        assert_eq!([wait(50_000_000, none), wait(50_000_000, most)], [Some(50), Some(51)]);
        let longest = u64::from(u32::MAX) * 1_000_000;
        assert_eq!([wait(longest, none), wait(longest + 1, none)], [Some(u32::MAX), None]);
        assert_eq!([wait(u64::MAX, most), wait(longest, most)], [None, None]);
    }

    #[test]
    fn time_is_split_at_whole_milliseconds() {
        let time = Duration::new(3, 4_000_005);
        assert_eq!(split(time), (3_004, Duration::from_nanos(5)));
    }
}
