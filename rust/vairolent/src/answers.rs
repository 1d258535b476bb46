//! What an operate and a query answer.

use std::fmt;

use crate::codes;
use crate::wakings::Wakings;

/// What becomes of a call that is not refused.
///
/// ```
/// use vairolent::{Host, Operation};
///
/// let mut host = Host::new();
/// let set = host.create(1, 1, 0o666)?;
/// let asleep = host.operate(1, set, &[Operation::new(0, -1)])?;
/// assert_eq!(asleep.to_string(), "asleep (-1) at operation 0");
/// let done = host.operate(2, set, &[Operation::new(0, 1)])?;
/// assert_eq!(done.to_string(), "done (0), 1 look; process 1: done (0)");
/// # Ok::<(), vairolent::Error>(())
/// ```
#[derive(Clone, Debug, PartialEq, Eq)]
#[must_use = "a call that is asleep has not done its operations"]
pub enum Answer {
    /// All its operations are done, and these sleepers were ended.
    Done(Wakings),
    /// Nothing is done. The process sleeps until the wakings of an event list it, or it exits.
    Asleep {
        /// Which operation stopped, from 0.
        position: usize,
    },
}

/// As in `done (0), 1 look; process 3: done (0)`, or `asleep (-1) at operation 0`.
impl fmt::Display for Answer {
    fn fmt(&self, f: &mut fmt::Formatter) -> fmt::Result {
        match self {
            Answer::Done(wakings) => {
                codes::DONE.write(None, f)?;
                write!(f, ", {wakings}")
            }
            Answer::Asleep { position } => codes::ASLEEP.write(Some(*position), f),
        }
    }
}

/// A semaphore as a query shows it.
///
/// A sleeper counts once, at the operation where it now stops: for increase if that amount is
/// negative, else for zero. Each count is the number of ones in its mask.
///
/// ```
/// use vairolent::{Answer, Host, Operation};
///
/// let mut host = Host::new();
/// let set = host.create(4, 1, 0o666)?;
/// assert_eq!(host.operate(3, set, &[Operation::new(0, -2)])?, Answer::Asleep { position: 0 });
/// let _ = host.operate(4, set, &[Operation::new(0, 1)])?;
/// let seen = host.query(4, set, 0)?;
/// assert_eq!(seen.to_string(), "value 1, last process 4, waiting 1 for increase, 0 for zero");
/// # Ok::<(), vairolent::Error>(())
/// ```
#[derive(Clone, Copy, Debug, PartialEq, Eq, Hash)]
pub struct Semaphore {
    /// 0 to 32,767.
    pub value: u16,
    /// The last process whose operations named it and were done; 0 if none were since its creation.
    pub last: u8,
    /// How many wait here for an increase.
    pub increase: u32,
    /// How many wait here for zero.
    pub zero: u32,
    /// Those who wait for an increase; process p has bit p-1.
    pub increase_mask: u8,
    /// Those who wait for zero; process p has bit p-1.
    pub zero_mask: u8,
}

/// As in `value 0, last process 2, waiting 1 for increase, 0 for zero`.
impl fmt::Display for Semaphore {
    fn fmt(&self, f: &mut fmt::Formatter) -> fmt::Result {
        let Semaphore { value, last, increase, zero, .. } = self;
        write!(f, "value {value}, last process {last}, ")?;
        write!(f, "waiting {increase} for increase, {zero} for zero")
    }
}
