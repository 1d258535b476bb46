//! What the lines of a file tell of its processes and sets.

use second::{Credentials, Event};

use crate::class::Rights;
use crate::line::Line;

#[derive(Default)]
pub struct World<'a> {
    /// By their numbers; there is no process 0.
    processes: [Process<'a>; 9],
    slots: [Slot; 4],
}

#[derive(Clone, Copy, Default)]
pub struct Process<'a> {
    pub acts_as: Credentials,
    /// It left after it became what it acts as.
    pub left: bool,
    /// The set and the operations of the call that it sleeps on.
    pub asleep: Option<(i32, &'a [u8])>,
}

/// A slot. Where it is free, all but the last field is nothing or 0.
#[derive(Clone, Copy, Default)]
pub struct Slot {
    pub identifier: Option<i32>,
    pub count: u16,
    pub rights: Rights,
    pub creator: u8,
    /// The owner of the set that was here before.
    pub owner_before: Option<u32>,
}

impl<'a> World<'a> {
    pub fn process(&self, number: u8) -> Option<&Process<'a>> {
        (1..=8).contains(&number).then(|| &self.processes[usize::from(number)])
    }

    /// The slot of an identifier, whatever is there.
    pub fn slot(&self, identifier: i32) -> Slot {
        self.slots[slot_of(identifier)]
    }

    pub fn is_full(&self) -> bool {
        self.slots.iter().all(|slot| slot.identifier.is_some())
    }

    pub fn asleep(&self) -> usize {
        self.processes.iter().filter(|process| process.asleep.is_some()).count()
    }

    /// Follows one event.
    pub fn follow(&mut self, event: Event<'a>, line: &Line) {
        match (event, line.code.number, &line.numbers[..]) {
            (Event::Create { process, count, mode }, 0, [identifier, ..]) => {
                self.create(process, count, mode, *identifier);
            }
            (Event::Remove { identifier, .. }, 0, _) => {
                let slot = &mut self.slots[slot_of(identifier)];
                let owner_before = Some(slot.rights.owner);
                *slot = Slot { owner_before, ..Slot::default() };
            }
            (Event::ActAs { process, user, group }, 0, _) => {
                let acts_as = Credentials { user, group };
                self.processes[usize::from(process)] = Process { acts_as, ..Process::default() };
            }
            (Event::Operate { process, identifier, operations, .. }, -1, _) => {
                self.processes[usize::from(process)].asleep = Some((identifier, operations));
            }
            (Event::Exit { process }, 0, _) => {
                let process = &mut self.processes[usize::from(process)];
                process.asleep = None;
                process.left = true;
            }
            _ => {}
        }
        for (process, _) in &line.wakings {
            self.processes[usize::from(*process)].asleep = None;
        }
    }

    fn create(&mut self, creator: u8, count: u8, mode: u16, identifier: i32) {
        let Credentials { user, group } = self.processes[usize::from(creator)].acts_as;
        let slot = &mut self.slots[slot_of(identifier)];
        *slot = Slot {
            identifier: Some(identifier),
            count: count.into(),
            rights: Rights { owner: user, group, mode },
            creator,
            ..*slot
        };
    }
}

fn slot_of(identifier: i32) -> usize {
    (identifier & 3) as usize
}
