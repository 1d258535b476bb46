//! The end of a process: its calls are gone, and what it did with SEM_UNDO is given back, all at once.

use vairolent::Event;

use crate::caller::ProcessId;
use crate::daemon::Daemon;

impl Daemon {
    /// Hands in the end of a process. Of several numbers those that sleep are woken first, by which
    /// their adjustments come to one.
    pub fn exit(&mut self, process: ProcessId) {
        let numbers: Vec<u8> = self.leases.of(process).collect();
        for &number in &numbers {
            if numbers.len() > 1 && self.is_asleep(number) {
                self.settle(&Event::Signal { process: number });
            }
        }
        for number in numbers {
            self.sleepers.retain(|sleeper| sleeper.number != number);
            if self.leases.holder(number) == Some(process) {
                self.leases.free(number);
                self.settle(&Event::Exit { process: number });
            }
        }
        self.leases.forget(process);
    }
}
