//! semop and semtimedop.

use vairolent::{Event, Host, Operation, Told, SEMAPHORES, SETS, VALUE_MAX};

use crate::caller::Caller;
use crate::clock;
use crate::daemon::{ConnectionId, Daemon, Sleeper};
use crate::errno::{Errno, ENOSPC, ERANGE};
use crate::leases::SPARE;
use crate::message::Reply;

/// A call as it came.
pub struct Call {
    pub caller: Caller,
    pub connection: ConnectionId,
    pub identifier: i32,
    /// In nanoseconds.
    pub wait: Option<u64>,
    pub operations: Vec<Operation>,
}

impl Daemon {
    /// The answer, or nothing while the call sleeps.
    pub fn operate(&mut self, call: Call) -> Option<Reply> {
        // The time comes first: it may wake the caller's own threads, and free their numbers.
        let wait = call.wait.and_then(|wait| clock::wait(wait, self.begin_wait(wait)));
        let (identifier, operations) = (call.identifier, &call.operations[..]);
        let process = self.number_at(identifier, &call.caller);
        let event = Event::Operate { process, identifier, wait, operations };
        if let Err(errno) = self.admit(&call, process, &event) {
            return Some(errno.into());
        }
        match self.engine.run(&event) {
            Told::Refused(error) => Some(Reply::ended(error.code())),
            Told::Asleep { .. } => {
                self.put_to_sleep(process, call);
                None
            }
            Told::Done(wakings) => {
                self.operated(&call.caller, identifier, operations);
                if process != SPARE {
                    self.keep_or_release(process, call.caller.process);
                }
                self.wake(wakings);
                Some(Reply::of(0))
            }
            _ => unreachable!("an operate sleeps, is done or refused"),
        }
    }

    /// A wait begins at the time told last: so it is told now, if there is a wait.
    fn begin_wait(&mut self, nanoseconds: u64) -> std::time::Duration {
        if nanoseconds > 0 {
            self.tell_time()
        } else {
            Default::default()
        }
    }

    fn put_to_sleep(&mut self, number: u8, call: Call) {
        let Call { caller, connection, identifier, operations, .. } = call;
        self.leases.take(number, caller.process);
        self.sleepers.push(Sleeper { number, caller, connection, identifier, operations });
    }

    /// May the call be handed in? Whatever the service itself refuses may.
    fn admit(&self, call: &Call, process: u8, event: &Event) -> Result<(), Errno> {
        if process != SPARE && self.other_parts(call, process).next().is_none() {
            return Ok(());
        }
        match self.engine.would(event) {
            (Told::Asleep { .. }, _) if process == SPARE => Err(ENOSPC),
            (Told::Done(_), after) if process == SPARE && holds(&after) => Err(ENOSPC),
            (Told::Done(_), after) if self.leaves_range(call, process, &after) => Err(ERANGE),
            _ => Ok(()),
        }
    }

    /// The caller's numbers besides this one: where threads sleep, its account is in parts.
    fn other_parts<'a>(&'a self, call: &Call, process: u8) -> impl Iterator<Item = u8> + 'a {
        self.leases.of(call.caller.process).filter(move |&number| number != process)
    }

    /// Would the parts of the caller's account together leave the range that one has?
    fn leaves_range(&self, call: &Call, process: u8, after: &Host) -> bool {
        let mut sums = [0; SETS * SEMAPHORES];
        for number in self.other_parts(call, process).chain([process]) {
            let part = after.adjustments(number);
            sums.iter_mut()
                .zip(part.iter().flatten())
                .for_each(|(sum, each)| *sum += i32::from(*each));
        }
        sums.iter().any(|sum| sum.abs() > i32::from(VALUE_MAX))
    }
}

/// Does the spare number hold adjustments?
fn holds(host: &Host) -> bool {
    host.adjustments(SPARE) != [[0; SEMAPHORES]; SETS]
}
