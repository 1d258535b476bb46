//! The sleeping calls of all sets, oldest first.

use crate::clock::Wait;
use crate::errno::Errno;
use crate::judge::Array;
use crate::process::{Process, PROCESSES};

/// A call, and what it sleeps with.
#[derive(Clone, Copy, Debug, Default)]
pub struct Sleeper {
    /// The slot of its set.
    pub slot: usize,
    pub array: Array,
    /// The mask of the semaphores its array names.
    pub names: u8,
    pub wait: Wait,
}

#[derive(Clone, Debug)]
pub struct Queue {
    /// The processes asleep, in the order in which they went to sleep.
    order: Vec<Process>,
    /// The same as a mask.
    asleep: u8,
    /// Each process's last call; it sleeps on it only while it is in the order.
    calls: [Sleeper; PROCESSES],
}

impl Queue {
    pub fn new() -> Queue {
        Queue {
            order: Vec::with_capacity(PROCESSES),
            asleep: 0,
            calls: [Sleeper::default(); PROCESSES],
        }
    }

    /// The mask of the processes asleep.
    pub fn asleep(&self) -> u8 {
        self.asleep
    }

    /// Reads the operations of a call by a process that is awake.
    pub fn read(&mut self, process: Process, bytes: &[u8]) -> Result<(), Errno> {
        self.calls[process.index()].array.read(bytes)
    }

    /// The process sleeps on its last call, at the set in this slot.
    pub fn push(&mut self, process: Process, slot: usize, names: u8, wait: Wait) {
        self.order.push(process);
        self.asleep |= process.bit();
        let call = &mut self.calls[process.index()];
        call.slot = slot;
        call.names = names;
        call.wait = wait;
    }

    /// Takes the process out; says whether it was asleep.
    pub fn take_out(&mut self, process: Process) -> bool {
        let was_asleep = self.asleep & process.bit() != 0;
        if was_asleep {
            self.order.retain(|&other| other != process);
            self.asleep &= !process.bit();
        }
        was_asleep
    }

    /// The process at this place of the order, 0 being the oldest.
    pub fn at(&self, place: usize) -> Option<Process> {
        self.order.get(place).copied()
    }

    pub fn call(&self, process: Process) -> &Sleeper {
        &self.calls[process.index()]
    }

    /// The sleepers of one set, oldest first.
    pub fn of_set(&self, slot: usize) -> impl Iterator<Item = (Process, &Sleeper)> {
        self.order
            .iter()
            .map(move |&process| (process, self.call(process)))
            .filter(move |(_, sleeper)| sleeper.slot == slot)
    }

    pub fn take_oldest_of_set(&mut self, slot: usize) -> Option<Process> {
        let (oldest, _) = self.of_set(slot).next()?;
        self.take_out(oldest);
        Some(oldest)
    }

    /// Takes out the oldest of those whose wait is over by this time.
    pub fn take_oldest_over(&mut self, time: u64) -> Option<Process> {
        let mut sleepers = self.order.iter().copied();
        let oldest = sleepers.find(|&process| self.call(process).wait.is_over(time))?;
        self.take_out(oldest);
        Some(oldest)
    }

    /// The times at which waits are over, the oldest sleeper's first.
    pub fn ends(&self) -> impl Iterator<Item = u64> + '_ {
        self.order.iter().filter_map(|&process| self.call(process).wait.end())
    }

    /// The sleepers of one set that name a semaphore of the mask, oldest first.
    pub fn naming(&self, slot: usize, mask: u8) -> impl Iterator<Item = (Process, &Sleeper)> {
        self.of_set(slot).filter(move |(_, sleeper)| sleeper.names & mask != 0)
    }

    /// The marks of those who name a touched semaphore of the set, as a mask.
    pub fn marks(&self, slot: usize, touched: u8) -> u8 {
        self.naming(slot, touched).fold(0, |marks, (process, _)| marks | process.bit())
    }
}
