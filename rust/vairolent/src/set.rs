//! What a whole set shows.

use std::array;
use std::fmt;

use crate::answers::Semaphore;
use crate::archive::QueriedSet;
use crate::limits::SEMAPHORES;

/// A whole set: each of its semaphores as a query shows it.
///
/// ```
/// use vairolent::{Answer, Host, Operation};
///
/// let mut host = Host::new();
/// let set = host.create(4, 2, 0o666)?;
/// let _ = host.operate(4, set, &[Operation::new(0, 1)])?;
/// assert_eq!(host.operate(3, set, &[Operation::new(1, -1)])?, Answer::Asleep { position: 0 });
/// assert_eq!(
///     host.query_set(4, set)?.to_string(),
///     "0: value 1, last process 4, waiting 0 for increase, 0 for zero\n\
///      1: value 0, last process 0, waiting 1 for increase, 0 for zero\n"
/// );
/// # Ok::<(), vairolent::Error>(())
/// ```
#[derive(Clone, PartialEq, Eq, Hash)]
pub struct Set {
    /// Zeros from the set's count on.
    semaphores: [Semaphore; SEMAPHORES],
    count: usize,
    judged: u32,
}

impl Set {
    /// What the archive tells of a set that it does not refuse.
    pub(crate) fn new(seen: &QueriedSet) -> Set {
        let semaphore = |n: usize| Semaphore {
            value: seen.values[n],
            last: seen.lasts[n],
            increase: seen.increase[n],
            zero: seen.zero[n],
            increase_mask: seen.increase_masks[n],
            zero_mask: seen.zero_masks[n],
        };
        Set {
            semaphores: array::from_fn(semaphore),
            count: usize::from(seen.count),
            judged: seen.judged,
        }
    }

    /// The semaphores, by their numbers from 0 on.
    pub fn semaphores(&self) -> &[Semaphore] {
        &self.semaphores[..self.count]
    }

    /// How many arrays were judged for it: those of the sleepers of the set, each once. They are no
    /// looks.
    ///
    /// A sleeper waits at one semaphore alone, so this is also the sum of all wait counts.
    pub fn judged(&self) -> u32 {
        self.judged
    }
}

/// A line for each semaphore, as in `1: value 0, last process 2, waiting 1 for increase, 0 for zero`.
impl fmt::Display for Set {
    fn fmt(&self, f: &mut fmt::Formatter) -> fmt::Result {
        let mut numbered = self.semaphores().iter().enumerate();
        numbered.try_for_each(|(number, semaphore)| writeln!(f, "{number}: {semaphore}"))
    }
}

/// Its semaphores alone, and how many arrays were judged.
impl fmt::Debug for Set {
    fn fmt(&self, f: &mut fmt::Formatter) -> fmt::Result {
        let mut shown = f.debug_struct("Set");
        shown.field("semaphores", &self.semaphores()).field("judged", &self.judged).finish()
    }
}
