//! What the answers tell about the host.

use std::ops::RangeInclusive;

use crate::answer::Answer;
use crate::event::Event;
use crate::owners::Owners;
use crate::sleepers::Sleepers;

/// The processes that a host has.
const PROCESSES: RangeInclusive<u8> = 1..=8;

#[derive(Default)]
pub struct Known<'a> {
    pub sleepers: Sleepers<'a>,
    pub owners: Owners,
}

impl<'a> Known<'a> {
    pub fn note(&mut self, event: &'a Event, answer: &Answer) {
        self.sleepers.note(event, answer);
        self.owners.note(event, answer);
    }

    /// A process that is awake, user 0 if one of them is.
    pub fn awake(&self) -> Option<u8> {
        let awake = PROCESSES.filter(|process| self.sleepers.call(*process).is_none());
        awake.min_by_key(|process| self.owners.numbers(*process).user != 0)
    }
}
