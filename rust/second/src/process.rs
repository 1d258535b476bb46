//! The eight processes.

use crate::errno::Errno;

pub const PROCESSES: usize = 8;

/// A process, kept as its index 0 to 7; its number is one higher.
#[derive(Clone, Copy, Debug, PartialEq, Eq)]
pub struct Process(u8);

impl Process {
    pub fn new(number: u8) -> Result<Process, Errno> {
        if (1..=PROCESSES as u8).contains(&number) {
            Ok(Process(number - 1))
        } else {
            Err(Errno::Esrch)
        }
    }

    pub fn number(self) -> u8 {
        self.0 + 1
    }

    pub fn index(self) -> usize {
        usize::from(self.0)
    }

    /// The process's bit in a mask.
    pub fn bit(self) -> u8 {
        1 << self.0
    }
}
