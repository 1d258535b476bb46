//! The clock, and the waits that it ends. Times are in milliseconds.

/// The latest time that can be told.
pub const TIME_MAX: u64 = i64::MAX as u64;

/// How long a call may sleep.
#[derive(Clone, Copy, Debug, Default)]
pub struct Wait {
    /// The time last told when it went to sleep.
    pub start: u64,
    /// None is without end.
    pub length: Option<u32>,
}

impl Wait {
    /// The time at which it is over, if it ever is. The sum may be later than any time that can be
    /// told, and has room in 64 bits.
    pub fn end(&self) -> Option<u64> {
        self.length.map(|length| self.start + u64::from(length))
    }

    pub fn is_over(&self, time: u64) -> bool {
        self.end().map_or(false, |end| end <= time)
    }
}
