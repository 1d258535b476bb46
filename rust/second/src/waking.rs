//! Who wakes after an event: the plain rule and the quick rule.

use crate::answer::Report;
use crate::host::{Host, Rule};
use crate::judge::Outcome;
use crate::process::Process;

impl Host {
    /// The answer to a done event that touched these semaphores of one set.
    pub(crate) fn treated(&mut self, slot: usize, touched: u8) -> Report {
        let mut report = Report::default();
        self.treat(slot, touched, &mut report);
        report
    }

    /// Treats one set, in which the event touched the semaphores of the mask.
    pub(crate) fn treat(&mut self, slot: usize, touched: u8, report: &mut Report) {
        match self.rule {
            Rule::Quick => self.treat_quick(slot, touched, report),
            Rule::Plain => self.treat_plain(slot, report),
        }
    }

    /// Looks at every sleeper of the set, from the oldest on; begins again when one is finished.
    fn treat_plain(&mut self, slot: usize, report: &mut Report) {
        let mut place = 0;
        while let Some(process) = self.queue.at(place) {
            place += 1;
            let here = self.queue.call(process).slot == slot;
            if here && self.look(process, report).is_some() {
                place = 0;
            }
        }
    }

    /// Looks at marked sleepers only, oldest first; a finished one marks those who name what it
    /// changed, and a new round begins.
    fn treat_quick(&mut self, slot: usize, touched: u8, report: &mut Report) {
        let mut marks = self.queue.marks(slot, touched);
        let mut place = 0;
        while let Some(process) = self.queue.at(place) {
            place += 1;
            if marks & process.bit() == 0 {
                continue;
            }
            marks &= !process.bit();
            if let Some(changed) = self.look(process, report) {
                marks |= self.queue.marks(slot, changed);
                place = 0; // the new round
            }
        }
    }

    /// One look: judges the sleeper's array on the present state. If that finishes the sleeper,
    /// it is taken out and listed; the mask is that of the semaphores whose value it changed.
    fn look(&mut self, process: Process, report: &mut Report) -> Option<u8> {
        report.looks += 1;
        let sleeper = self.queue.call(process);
        let (outcome, changed) = self.sets[sleeper.slot].perform(process, &sleeper.array);
        let (code, position) = match outcome {
            Outcome::Sleep(_) => return None,
            Outcome::Done => (0, None),
            Outcome::Refused(errno, position) => (errno.number(), Some(position)),
        };
        self.queue.take_out(process);
        report.wakings.push(process, code, position);
        Some(changed)
    }
}
