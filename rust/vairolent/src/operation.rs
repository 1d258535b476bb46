//! One operation of an array.

use std::mem::{align_of, size_of};

/// An operation on one semaphore of a set, as C's `struct sembuf` has it.
///
/// An amount above 0 is added to the value; one below 0 is taken from it, and stops while the value
/// is too small; 0 stops while the value is not 0.
///
/// ```
/// use vairolent::Operation;
///
/// let take = Operation::new(2, -1).undo();
/// assert_eq!(take, Operation { number: 2, amount: -1, flags: Operation::UNDO });
/// ```
#[repr(C)]
#[derive(Clone, Copy, Debug, PartialEq, Eq, Hash)]
pub struct Operation {
    /// Which semaphore of the set, from 0 on.
    pub number: u16,
    /// What is added to its value.
    pub amount: i16,
    /// [`NOWAIT`](Operation::NOWAIT) and [`UNDO`](Operation::UNDO); other bits are ignored.
    pub flags: u16,
}

// The archive reads arrays of these as bytes, six for each.
const _: () = assert!(size_of::<Operation>() == 6 && align_of::<Operation>() == 2);

impl Operation {
    /// IPC_NOWAIT: where this operation stops, the call is refused and does not sleep.
    pub const NOWAIT: u16 = 2_048;

    /// SEM_UNDO: the amount is subtracted from the process's adjustment of that semaphore, which
    /// its exit adds to the value.
    pub const UNDO: u16 = 4_096;

    /// Without flags.
    pub const fn new(number: u16, amount: i16) -> Operation {
        Operation { number, amount, flags: 0 }
    }

    /// The same with [`NOWAIT`](Operation::NOWAIT).
    #[must_use]
    pub const fn nowait(self) -> Operation {
        Operation { flags: self.flags | Operation::NOWAIT, ..self }
    }

    /// The same with [`UNDO`](Operation::UNDO).
    #[must_use]
    pub const fn undo(self) -> Operation {
        Operation { flags: self.flags | Operation::UNDO, ..self }
    }

    /// The six bytes of a `struct sembuf`: number, amount and flags, little-endian.
    pub const fn to_bytes(self) -> [u8; 6] {
        let [number, amount, flags] =
            [self.number.to_le_bytes(), self.amount.to_le_bytes(), self.flags.to_le_bytes()];
        [number[0], number[1], amount[0], amount[1], flags[0], flags[1]]
    }

    /// The operation of six such bytes.
    ///
    /// ```
    /// use vairolent::Operation;
    ///
    /// let take = Operation::new(2, -1).undo();
    /// assert_eq!(take.to_bytes(), [2, 0, 255, 255, 0, 16]);
    /// assert_eq!(Operation::from_bytes(take.to_bytes()), take);
    /// ```
    pub const fn from_bytes(six: [u8; 6]) -> Operation {
        Operation {
            number: u16::from_le_bytes([six[0], six[1]]),
            amount: i16::from_le_bytes([six[2], six[3]]),
            flags: u16::from_le_bytes([six[4], six[5]]),
        }
    }
}
