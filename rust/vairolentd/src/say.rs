//! What the daemon says, a line each on standard error. Of what others do wrong it says some lines in a
//! second at most, so that nobody fills a disk with them.

use std::fmt::Display;
use std::io::{self, Write};
use std::sync::Mutex;

use crate::clock;

/// Complaints in one second.
const MOST: u32 = 20;

/// The present second, how many complaints were said in it, and how many left out.
#[derive(Default)]
struct Pace {
    second: u64,
    said: u32,
    left_out: u32,
}

impl Pace {
    /// May one be said in this second? And how many were left out before it.
    fn allows(&mut self, second: u64) -> Option<u32> {
        if second != self.second {
            (self.second, self.said) = (second, 0);
        }
        if self.said == MOST {
            self.left_out += 1;
            return None;
        }
        self.said += 1;
        Some(std::mem::take(&mut self.left_out))
    }
}

static PACE: Mutex<Pace> = Mutex::new(Pace { second: 0, said: 0, left_out: 0 });

/// Says it; where nobody can hear, the daemon goes on.
pub fn say(words: impl Display) {
    let _ = io::stderr().write_all(format!("vairolentd: {words}\n").as_bytes());
}

/// Says what others do wrong, unless there is too much of it.
pub fn complain(words: impl Display) {
    let allowed = PACE.lock().map(|mut pace| pace.allows(clock::wall()));
    if let Ok(Some(left_out)) = allowed {
        if left_out > 0 {
            say(format!("{left_out} complaints before this one are left out"));
        }
        say(words);
    }
}

#[cfg(test)]
mod tests {
    use super::*;

    #[test]
    fn so_many_complaints_in_a_second() {
        let mut pace = Pace::default();
        for _ in 0..MOST {
            assert_eq!(pace.allows(5), Some(0));
        }
        assert_eq!([pace.allows(5), pace.allows(5)], [None, None]);
        assert_eq!([pace.allows(6), pace.allows(6)], [Some(2), Some(0)]);
    }
}
