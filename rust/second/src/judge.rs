//! Arrays of operations, and how they are judged.

use crate::errno::Errno;
use crate::event::OPERATION;
use crate::position::Position;

/// Semaphores in a set, at most.
pub const SEMAPHORES: usize = 8;
/// Operations in one call, at most.
pub const OPERATIONS: usize = 32;
/// The largest value of a semaphore (SEMVMX), and the largest magnitude of an adjustment.
pub const VALUE_MAX: i32 = 32_767;
pub const ADJUSTMENT_MAX: i32 = 32_767;

pub const IPC_NOWAIT: u16 = 2_048;
pub const SEM_UNDO: u16 = 4_096;

/// One operation, as it came.
#[derive(Clone, Copy, Debug, Default)]
pub struct Operation {
    pub number: u16,
    pub amount: i16,
    pub flags: u16,
}

/// The operations of a call.
#[derive(Clone, Copy, Debug, Default)]
pub struct Array {
    operations: [Operation; OPERATIONS],
    length: usize,
}

/// How the judging of an array ends; where it is not done, with the position of the operation that
/// decided.
#[derive(Clone, Copy, Debug, PartialEq, Eq)]
pub enum Outcome {
    Done,
    /// The array stops, and may wait there.
    Sleep(Position),
    Refused(Errno, Position),
}

/// The copy on which an array is judged: the set's values and the caller's adjustments.
#[derive(Clone, Copy, Debug)]
pub struct Trial {
    pub values: [i32; SEMAPHORES],
    pub adjustments: [i32; SEMAPHORES],
}

impl Operation {
    fn read(bytes: &[u8]) -> Operation {
        Operation {
            number: u16::from_le_bytes([bytes[0], bytes[1]]),
            amount: i16::from_le_bytes([bytes[2], bytes[3]]),
            flags: u16::from_le_bytes([bytes[4], bytes[5]]),
        }
    }
}

impl Array {
    /// Reads operations of six bytes, at least one and at most `OPERATIONS`, over those that were
    /// here.
    pub fn read(&mut self, bytes: &[u8]) -> Result<(), Errno> {
        if bytes.is_empty() || bytes.len() % OPERATION != 0 {
            return Err(Errno::Einval);
        }
        let length = bytes.len() / OPERATION;
        if length > OPERATIONS {
            return Err(Errno::E2big);
        }
        for (operation, six) in self.operations.iter_mut().zip(bytes.chunks_exact(OPERATION)) {
            *operation = Operation::read(six);
        }
        self.length = length;
        Ok(())
    }

    pub fn operations(&self) -> &[Operation] {
        &self.operations[..self.length]
    }

    /// The operation at a position that judging gave.
    pub fn at(&self, position: Position) -> Operation {
        self.operations()[position.index()]
    }

    /// The semaphores that the array names, as a mask. Their numbers are known to be below 8.
    pub fn names(&self) -> u8 {
        self.operations().iter().fold(0, |mask, operation| mask | 1 << operation.number)
    }
}

impl Trial {
    /// Judges the operations in order, each on what those before it left.
    pub fn judge(&mut self, operations: &[Operation]) -> Outcome {
        for (index, operation) in operations.iter().enumerate() {
            let position = Position::new(index);
            let number = usize::from(operation.number);
            let amount = i32::from(operation.amount);
            let value = self.values[number];
            if value + amount > VALUE_MAX {
                return Outcome::Refused(Errno::Erange, position);
            }
            // The magnitude is taken in the wider type, where that of -32,768 is 32,768.
            let stops = if amount == 0 { value != 0 } else { value < -amount };
            if stops && operation.flags & IPC_NOWAIT != 0 {
                return Outcome::Refused(Errno::Eagain, position);
            }
            if stops {
                return Outcome::Sleep(position);
            }
            self.values[number] += amount;
            if operation.flags & SEM_UNDO != 0 {
                self.adjustments[number] -= amount;
                if self.adjustments[number].abs() > ADJUSTMENT_MAX {
                    return Outcome::Refused(Errno::Erange, position);
                }
            }
        }
        Outcome::Done
    }
}
