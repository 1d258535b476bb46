//! Whom an event woke, and with which code.

use std::array::IntoIter;
use std::fmt;
use std::iter::{FusedIterator, Take};

use crate::archive::{List, Woken};
use crate::codes::coded;
use crate::limits::PROCESSES;

coded! {
    /// How the call of a sleeper ended.
    ///
    /// Each has its number and name on Linux, but for `done`, which is 0.
    ///
    /// ```
    /// use vairolent::Ending;
    ///
    /// assert_eq!((Ending::Removed.code(), Ending::Removed.name()), (43, "EIDRM"));
    /// assert_eq!(Ending::Removed.to_string(), "EIDRM (43): its set was removed");
    /// assert_eq!(Ending::Done.to_string(), "done (0)");
    /// ```
    ///
    /// Where the sleeper was judged again, and not let through, it has the
    /// [position](Ending::position) of the operation that decided then, which need not be the one at
    /// which the call went to sleep.
    ///
    /// ```
    /// use vairolent::{Answer, Ending, Host, Operation};
    ///
    /// let mut host = Host::new();
    /// let set = host.create(2, 2, 0o666)?;
    /// let operations = [Operation::new(0, 5), Operation::new(1, -1)];
    /// assert_eq!(host.operate(1, set, &operations)?, Answer::Asleep { position: 1 });
    /// // There is no room for 5 any more.
    /// let waking = host.set_value(2, set, 0, 32_765)?.next().expect("process 1");
    /// assert_eq!(waking.ending, Ending::OutOfRange { position: 0 });
    /// # Ok::<(), vairolent::Error>(())
    /// ```
    pub enum Ending {
        /// All its operations are done.
        Done = DONE,
        /// EAGAIN: it would sleep now at an operation with IPC_NOWAIT. Its operations are not done.
        WouldSleep { position } = EAGAIN,
        /// EAGAIN: its wait is over. Its operations are not done.
        TimedOut = EAGAIN_BY_CLOCK,
        /// ERANGE: a value or an adjustment would leave its range. Its operations are not done.
        OutOfRange { position } = ERANGE,
        /// EIDRM: its set was removed.
        Removed = EIDRM,
        /// EINTR: a signal interrupted it.
        Interrupted = EINTR,
    }
}

/// A sleeper that an event ended.
///
/// ```
/// use vairolent::{Ending, Waking};
///
/// let waking = Waking { process: 2, ending: Ending::Interrupted };
/// assert_eq!(waking.to_string(), "process 2: EINTR (4): a signal interrupted it");
/// let waking = Waking { process: 3, ending: Ending::WouldSleep { position: 1 } };
/// assert_eq!(
///     waking.to_string(),
///     "process 3: EAGAIN (11) at operation 1: an operation would sleep, and may not"
/// );
/// let waking = Waking { process: 4, ending: Ending::TimedOut };
/// assert_eq!(waking.to_string(), "process 4: EAGAIN (11): its wait is over");
/// ```
#[derive(Clone, Copy, Debug, PartialEq, Eq, Hash)]
pub struct Waking {
    /// The process that slept, 1 to 8.
    pub process: u8,
    /// How its call ended.
    pub ending: Ending,
}

/// The wakings of an event, in the order in which the sleepers were ended.
///
/// Two are equal if they have the same looks and the same wakings to come.
///
/// ```
/// use vairolent::{Answer, Ending, Host, Operation};
///
/// let mut host = Host::new();
/// let set = host.create(1, 1, 0o666)?;
/// for process in [3, 5] {
///     let answer = host.operate(process, set, &[Operation::new(0, -1)])?;
///     assert_eq!(answer, Answer::Asleep { position: 0 });
/// }
/// let wakings = host.set_value(1, set, 0, 1)?;
/// // Process 3 takes the 1 and is woken; process 5 is judged and sleeps on.
/// assert_eq!((wakings.len(), wakings.looks()), (1, 2));
/// for waking in wakings {
///     assert_eq!((waking.process, waking.ending), (3, Ending::Done));
/// }
/// # Ok::<(), vairolent::Error>(())
/// ```
#[derive(Clone)]
#[must_use = "each waking is a process that sleeps until it is told"]
pub struct Wakings {
    rest: Take<IntoIter<Woken, PROCESSES>>,
    looks: usize,
}

impl Wakings {
    /// The first so many of a list.
    pub(crate) fn new(list: List, woken: usize, looks: usize) -> Wakings {
        Wakings { rest: list.into_iter().take(woken), looks }
    }

    /// Those of an event that judges and wakes nobody.
    pub(crate) fn none() -> Wakings {
        Wakings::new(List::default(), 0, 0)
    }

    /// The looks of the event: how many times it judged a sleeper. Taking wakings out does not
    /// change them.
    pub fn looks(&self) -> usize {
        self.looks
    }
}

impl Iterator for Wakings {
    type Item = Waking;

    fn next(&mut self) -> Option<Waking> {
        let Woken { process, code, position } = self.rest.next()?;
        Some(Waking { process, ending: Ending::with_code(code.into(), position.get()) })
    }

    fn size_hint(&self) -> (usize, Option<usize>) {
        self.rest.size_hint()
    }
}

impl ExactSizeIterator for Wakings {}

impl FusedIterator for Wakings {}

impl PartialEq for Wakings {
    fn eq(&self, other: &Wakings) -> bool {
        self.looks == other.looks && Iterator::eq(self.clone(), other.clone())
    }
}

impl Eq for Wakings {}

impl fmt::Debug for Wakings {
    fn fmt(&self, f: &mut fmt::Formatter) -> fmt::Result {
        let rest: Vec<Waking> = self.clone().collect();
        f.debug_struct("Wakings").field("looks", &self.looks).field("rest", &rest).finish()
    }
}

/// As in `2 looks; process 3: done (0)`.
impl fmt::Display for Wakings {
    fn fmt(&self, f: &mut fmt::Formatter) -> fmt::Result {
        write!(f, "{} {}", self.looks, if self.looks == 1 { "look" } else { "looks" })?;
        self.clone().try_for_each(|waking| write!(f, "; {waking}"))
    }
}

/// As in `process 3: done (0)`.
impl fmt::Display for Waking {
    fn fmt(&self, f: &mut fmt::Formatter) -> fmt::Result {
        write!(f, "process {}: {}", self.process, self.ending)
    }
}
