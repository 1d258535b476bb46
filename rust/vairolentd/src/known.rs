//! What has to be known beside a host to build it again from a fresh one: who sleeps, on what and
//! since when, the time, as whom each number acts, whose each set is, and how often each slot was
//! freed. All of it is read off the events.

use vairolent::{Event, Operation, Told, Wakings, PROCESSES, SETS};

use crate::caller::Role;

/// A call that sleeps.
#[derive(Clone, Debug, PartialEq, Eq)]
pub struct Asleep {
    pub process: u8,
    pub identifier: i32,
    pub wait: Option<u32>,
    pub operations: Vec<Operation>,
    pub start: u64,
}

impl Asleep {
    /// When its wait is over.
    pub fn due(&self) -> Option<u64> {
        self.wait.map(|wait| self.start + u64::from(wait))
    }
}

/// A live set.
#[derive(Clone, Copy, Debug, PartialEq, Eq)]
pub struct Live {
    pub identifier: i32,
    pub owner: Role,
    pub mode: u16,
}

#[derive(Default)]
pub struct Known {
    /// Oldest first.
    pub asleep: Vec<Asleep>,
    /// The time told last.
    pub time: u64,
    /// By the numbers from 1 on.
    pub roles: [Role; PROCESSES],
    /// Of each slot how often it was freed, and its set.
    pub freed: [u32; SETS],
    pub live: [Option<Live>; SETS],
}

fn slot(identifier: i32) -> usize {
    identifier as usize % SETS
}

impl Known {
    /// As whom a number acts.
    pub fn role(&self, process: u8) -> Role {
        self.roles[usize::from(process) - 1]
    }

    /// The event by which a number comes to act as this, unless it does already.
    pub fn change(&self, process: u8, role: Role) -> Option<Event<'static>> {
        let Role { user, group } = role;
        (self.role(process) != role).then(|| Event::ActAs { process, user, group })
    }

    /// Takes in an event that told this.
    pub fn note(&mut self, event: &Event, told: &Told) {
        match (event, told) {
            (&Event::Operate { process, identifier, wait, operations }, Told::Asleep { .. }) => {
                let (operations, start) = (operations.to_vec(), self.time);
                self.asleep.push(Asleep { process, identifier, wait, operations, start });
            }
            (&Event::Create { process, mode, .. }, &Told::Made(identifier)) => {
                let owner = self.role(process);
                self.live[slot(identifier)] = Some(Live { identifier, owner, mode });
            }
            (event, Told::Done(wakings)) => self.done(event, wakings),
            _ => {}
        }
    }

    fn done(&mut self, event: &Event, wakings: &Wakings) {
        for waking in wakings.clone() {
            self.asleep.retain(|asleep| asleep.process != waking.process);
        }
        match *event {
            Event::Exit { process } => self.asleep.retain(|asleep| asleep.process != process),
            Event::Clock { time } => self.time = time,
            Event::ActAs { process, user, group } => {
                self.roles[usize::from(process) - 1] = Role { user, group };
            }
            Event::Remove { identifier, .. } => {
                self.live[slot(identifier)] = None;
                self.freed[slot(identifier)] += 1;
            }
            _ => {}
        }
    }

    /// The first time at which somebody's wait is over.
    pub fn due(&self) -> Option<u64> {
        self.asleep.iter().filter_map(Asleep::due).min()
    }
}
