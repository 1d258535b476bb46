//! All that the daemon holds, and what every call needs of it: numbers settled, sleepers woken, time
//! told.

use std::time::Duration;

use vairolent::{Ending, Event, Operation, Told, Wakings, SEMAPHORES, SETS};

use crate::caller::{Caller, ProcessId};
use crate::clock::{self, Clock};
use crate::engine::Engine;
use crate::leases::Leases;
use crate::message::Reply;
use crate::record::Record;
use crate::sets::Sets;

/// A connection, by a number that no other ever has.
#[derive(Clone, Copy, Debug, PartialEq, Eq, Hash)]
pub struct ConnectionId(pub u64);

/// A call that sleeps: who is answered when it ends.
pub struct Sleeper {
    pub number: u8,
    pub caller: Caller,
    pub connection: ConnectionId,
    pub identifier: i32,
    pub operations: Vec<Operation>,
}

pub struct Daemon {
    pub engine: Engine,
    pub sets: Sets,
    pub leases: Leases,
    pub sleepers: Vec<Sleeper>,
    pub clock: Clock,
    /// Answers to calls that have slept, to be sent.
    pub answers: Vec<(ConnectionId, Reply)>,
}

impl Daemon {
    pub fn new(record: Record) -> Daemon {
        Daemon {
            engine: Engine::new(record),
            sets: Sets::default(),
            leases: Leases::default(),
            sleepers: Vec::new(),
            clock: Clock::new(),
            answers: Vec::new(),
        }
    }

    /// Hands in an event that can only be done, and wakes whom it wakes. The code of one that is
    /// refused.
    pub fn settle(&mut self, event: &Event) -> i32 {
        match self.engine.run(event) {
            Told::Done(wakings) => {
                self.wake(wakings);
                self.release_idle();
                0
            }
            Told::Refused(error) => error.code(),
            _ => unreachable!("only a create makes, only an operate sleeps, only a query shows"),
        }
    }

    /// Answers those whom an event ended.
    pub fn wake(&mut self, wakings: Wakings) {
        for waking in wakings {
            let of_waking = |sleeper: &Sleeper| sleeper.number == waking.process;
            let at = self.sleepers.iter().position(of_waking).expect("only sleepers wake");
            let sleeper = self.sleepers.remove(at);
            if waking.ending == Ending::Done {
                self.operated(&sleeper.caller, sleeper.identifier, &sleeper.operations);
            }
            self.answers.push((sleeper.connection, Reply::ended(waking.ending.code())));
            self.keep_or_release(sleeper.number, sleeper.caller.process);
            self.unite(sleeper.caller.process);
        }
    }

    /// Notes that a call's operations are done.
    pub fn operated(&mut self, caller: &Caller, identifier: i32, operations: &[Operation]) {
        if let Ok(set) = self.sets.find_mut(identifier) {
            set.operated_by(caller.pid, operations, clock::wall());
        }
    }

    pub fn is_asleep(&self, number: u8) -> bool {
        self.sleepers.iter().any(|sleeper| sleeper.number == number)
    }

    pub fn holds_adjustments(&self, number: u8) -> bool {
        self.engine.host().adjustments(number) != [[0; SEMAPHORES]; SETS]
    }

    /// A process keeps a number while it sleeps by it or holds adjustments.
    pub fn keep_or_release(&mut self, number: u8, process: ProcessId) {
        if self.is_asleep(number) || self.holds_adjustments(number) {
            self.leases.take(number, process);
        } else {
            self.leases.free(number);
        }
    }

    /// Settings and removals clear adjustments, so that numbers may come free.
    fn release_idle(&mut self) {
        for number in self.leases.taken().collect::<Vec<u8>>() {
            if !self.is_asleep(number) && !self.holds_adjustments(number) {
                self.leases.free(number);
            }
        }
    }

    /// Tells the present time. How much has gone by since.
    pub fn tell_time(&mut self) -> Duration {
        let (time, behind) = self.clock.now();
        if time > self.engine.known().time {
            self.settle(&Event::Clock { time });
        }
        behind
    }

    /// Ends those whose wait is over by now.
    pub fn end_waits(&mut self) {
        if self.next_end().map_or(false, |left| left.is_zero()) {
            self.tell_time();
        }
    }

    /// How long it is until the first wait is over.
    pub fn next_end(&self) -> Option<Duration> {
        self.engine.known().due().map(|due| self.clock.until(due))
    }

    /// The call that sleeps in a connection is interrupted: by a signal, or because nobody waits for
    /// its answer any more.
    pub fn interrupt(&mut self, connection: ConnectionId) {
        let here = self.sleepers.iter().find(|sleeper| sleeper.connection == connection);
        if let Some(process) = here.map(|sleeper| sleeper.number) {
            self.settle(&Event::Signal { process });
        }
    }
}
