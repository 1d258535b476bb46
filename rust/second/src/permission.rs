//! Who a process acts as, and what it may do with a set.

use crate::errno::Errno;
use crate::judge::Array;
use crate::set::Set;

/// The user and the group that a process acts as.
#[derive(Clone, Copy, Debug, Default, PartialEq, Eq)]
pub struct Credentials {
    pub user: u32,
    pub group: u32,
}

/// The largest mode: three bits for the owner, three for the owning group, three for all others.
pub const MODE_MAX: u16 = 0o777;

/// What is asked of a set, as bits of three; the third of them asks for nothing.
pub const READ: u16 = 4;
pub const ALTER: u16 = 2;

impl Credentials {
    /// One class alone decides, even where a later one would allow more.
    pub fn permit(self, set: &Set, asked: u16) -> Result<(), Errno> {
        let bits = if self.user == set.owner {
            set.mode >> 6
        } else if self.group == set.group {
            set.mode >> 3
        } else {
            set.mode
        };
        if self.user == 0 || asked & !bits == 0 {
            Ok(())
        } else {
            Err(Errno::Eacces)
        }
    }

    /// Are all the semaphores of an array there, and may the caller do what it asks?
    pub fn admit(self, set: &Set, array: &Array) -> Result<(), Errno> {
        let mut asked = 0;
        for operation in array.operations() {
            if set.semaphore(operation.number).is_none() {
                return Err(Errno::Efbig);
            }
            asked |= if operation.amount == 0 { READ } else { ALTER };
        }
        self.permit(set, asked)
    }

    /// Removing goes by the owner, not by the mode.
    pub fn permit_removal(self, set: &Set) -> Result<(), Errno> {
        if self.user == 0 || self.user == set.owner {
            Ok(())
        } else {
            Err(Errno::Eperm)
        }
    }
}
