//! The host: what it holds.

use crate::errno::Errno;
use crate::permission::Credentials;
use crate::process::{Process, PROCESSES};
use crate::queue::Queue;
use crate::set::Set;

pub const SLOTS: usize = 4;

/// The rule by which a host looks at its sleepers.
#[derive(Clone, Copy, Debug, PartialEq, Eq)]
pub enum Rule {
    Quick,
    Plain,
}

#[derive(Clone, Debug)]
pub struct Host {
    pub(crate) rule: Rule,
    pub(crate) sets: [Set; SLOTS],
    pub(crate) queue: Queue,
    /// By process.
    pub(crate) credentials: [Credentials; PROCESSES],
    /// The time last told.
    pub(crate) time: u64,
}

impl Host {
    /// A fresh host that wakes by `rule`.
    pub fn new(rule: Rule) -> Host {
        Host {
            rule,
            sets: [Set::FREE; SLOTS],
            queue: Queue::new(),
            credentials: [Credentials::default(); PROCESSES],
            time: 0,
        }
    }

    /// The live sets with their identifiers, from slot 0 up.
    pub fn live_sets(&self) -> impl Iterator<Item = (i32, &Set)> {
        let slots = self.sets.iter().enumerate();
        slots.filter(|(_, set)| set.is_live()).map(|(slot, set)| (identifier(slot, set), set))
    }

    /// The processes asleep, as a mask.
    pub fn asleep(&self) -> u8 {
        self.queue.asleep()
    }

    /// Who each process acts as, process 1 first.
    pub fn credentials(&self) -> &[Credentials; PROCESSES] {
        &self.credentials
    }

    /// The time last told, in milliseconds.
    pub fn time(&self) -> u64 {
        self.time
    }

    /// The times at which waits of sleepers are over, the oldest sleeper's first.
    pub fn ends(&self) -> impl Iterator<Item = u64> + '_ {
        self.queue.ends()
    }

    /// The process that makes a call, which it can while it is awake.
    pub(crate) fn caller(&self, number: u8) -> Result<Process, Errno> {
        let process = Process::new(number)?;
        if self.queue.asleep() & process.bit() != 0 {
            return Err(Errno::Ebusy);
        }
        Ok(process)
    }

    /// The slot of a live set in which the caller may do what is asked.
    pub(crate) fn open(&self, process: u8, identifier: i32, asked: u16) -> Result<usize, Errno> {
        let caller = self.caller(process)?;
        let slot = self.find(identifier)?;
        self.credentials[caller.index()].permit(&self.sets[slot], asked)?;
        Ok(slot)
    }

    /// The same, and the index of the semaphore with this number.
    pub(crate) fn open_at(
        &self,
        process: u8,
        identifier: i32,
        number: u16,
        asked: u16,
    ) -> Result<(usize, usize), Errno> {
        let slot = self.open(process, identifier, asked)?;
        let index = self.sets[slot].semaphore(number).ok_or(Errno::Einval)?;
        Ok((slot, index))
    }

    /// The slot of the live set with this identifier.
    pub(crate) fn find(&self, wanted: i32) -> Result<usize, Errno> {
        let slot = (wanted & 3) as usize;
        let set = &self.sets[slot];
        if set.is_live() && wanted == identifier(slot, set) {
            Ok(slot)
        } else {
            Err(Errno::Einval)
        }
    }
}

pub(crate) fn identifier(slot: usize, set: &Set) -> i32 {
    slot as i32 + 4 * i32::from(set.generation)
}
