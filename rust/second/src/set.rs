//! One set of semaphores.

use crate::errno::Errno;
use crate::event::VALUE;
use crate::judge::{Array, Outcome, Trial, SEMAPHORES, VALUE_MAX};
use crate::process::{Process, PROCESSES};

/// A slot and the set in it. In a free slot every number but the generation is 0.
#[derive(Clone, Debug)]
pub struct Set {
    pub generation: u16,
    /// Number of semaphores; 0 in a free slot.
    pub count: u8,
    /// The creator's user and group, as they were then.
    pub owner: u32,
    pub group: u32,
    pub mode: u16,
    pub values: [i32; SEMAPHORES],
    /// The process number of the last operation on each semaphore.
    pub last: [u8; SEMAPHORES],
    /// The undo adjustments, by process and semaphore.
    pub adjustments: [[i32; SEMAPHORES]; PROCESSES],
}

impl Set {
    pub const FREE: Set = Set {
        generation: 0,
        count: 0,
        owner: 0,
        group: 0,
        mode: 0,
        values: [0; SEMAPHORES],
        last: [0; SEMAPHORES],
        adjustments: [[0; SEMAPHORES]; PROCESSES],
    };

    pub fn is_live(&self) -> bool {
        self.count != 0
    }

    /// The index of the semaphore with this number, if the set has it.
    pub fn semaphore(&self, number: u16) -> Option<usize> {
        (number < u16::from(self.count)).then(|| usize::from(number))
    }

    /// Sets all values, which come as bytes, and forgets what any process holds. There has to be
    /// one in range for each semaphore.
    pub fn set_all(&mut self, bytes: &[u8]) -> Result<(), Errno> {
        if bytes.len() != VALUE * usize::from(self.count) {
            return Err(Errno::Einval);
        }
        let mut values = [0; SEMAPHORES];
        for (value, four) in values.iter_mut().zip(bytes.chunks_exact(VALUE)) {
            *value = i32::from_le_bytes([four[0], four[1], four[2], four[3]]);
        }
        if values.iter().any(|value| !(0..=VALUE_MAX).contains(value)) {
            return Err(Errno::Erange);
        }
        self.values = values;
        self.adjustments = Set::FREE.adjustments;
        Ok(())
    }

    fn trial_for(&self, process: Process) -> Trial {
        Trial { values: self.values, adjustments: self.adjustments[process.index()] }
    }

    /// How the array would end on the present state, which stays as it is.
    pub fn outcome(&self, process: Process, array: &Array) -> Outcome {
        self.trial_for(process).judge(array.operations())
    }

    /// Judges the array and, if every operation goes through, keeps the result. Also gives the
    /// mask of the semaphores whose value is another now.
    pub fn perform(&mut self, process: Process, array: &Array) -> (Outcome, u8) {
        let mut trial = self.trial_for(process);
        let outcome = trial.judge(array.operations());
        if outcome != Outcome::Done {
            return (outcome, 0);
        }
        let changed = difference(&self.values, &trial.values);
        self.values = trial.values;
        self.adjustments[process.index()] = trial.adjustments;
        for operation in array.operations() {
            self.last[usize::from(operation.number)] = process.number();
        }
        (outcome, changed)
    }

    /// Gives back what the process holds, cut to the range of a value. Gives the mask of the
    /// semaphores whose value is another now.
    pub fn undo(&mut self, process: Process) -> u8 {
        let before = self.values;
        let adjustments = &mut self.adjustments[process.index()];
        for (value, adjustment) in self.values.iter_mut().zip(adjustments.iter_mut()) {
            *value = (*value + *adjustment).clamp(0, VALUE_MAX);
            *adjustment = 0;
        }
        difference(&before, &self.values)
    }
}

/// The mask of the semaphores whose values differ.
fn difference(before: &[i32; SEMAPHORES], after: &[i32; SEMAPHORES]) -> u8 {
    (0..SEMAPHORES).fold(0, |mask, n| mask | u8::from(before[n] != after[n]) << n)
}
