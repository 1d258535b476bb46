//! What Linux keeps of a set beside its semaphores: key, owner, mode, times and last pids.

use vairolent::{Operation, SEMAPHORES, SETS};

use crate::caller::{Caller, Role};
use crate::errno::{Errno, EACCES, EINVAL};

/// The key of a set that has none, IPC_PRIVATE.
pub const PRIVATE: i32 = 0;

/// What a caller asks of a set: bits as in one class of a mode.
pub const READ: u16 = 4;
pub const ALTER: u16 = 2;

#[derive(Clone, Debug)]
pub struct Set {
    pub identifier: i32,
    pub key: i32,
    /// Owner and owning group: the creator's, since nobody can change them.
    pub owner: Role,
    /// Nine bits.
    pub mode: u16,
    pub count: usize,
    /// The last semop that was done and the last change, in seconds of the clock on the wall.
    pub operated: u64,
    pub changed: u64,
    /// Of each semaphore the pid of the process whose done array named it last.
    pub lasts: [i32; SEMAPHORES],
}

impl Set {
    /// May the caller have all of this, by the bits of its class: owner, else owning group, else other?
    /// It is asked for what is no event: of those the service asks it, by the same rule.
    pub fn permits(&self, caller: &Caller, asked: u16) -> Result<(), Errno> {
        let shift = match caller.role.user {
            user if user == self.owner.user => 6,
            _ if caller.is_in(self.owner.group) => 3,
            _ => 0,
        };
        if caller.role.user != 0 && asked & 7 & !(self.mode >> shift) != 0 {
            Err(EACCES)
        } else {
            Ok(())
        }
    }

    /// Notes that operations of a process are done.
    pub fn operated_by(&mut self, pid: i32, operations: &[Operation], now: u64) {
        self.operated = now;
        for operation in operations {
            self.lasts[usize::from(operation.number)] = pid;
        }
    }
}

/// The live sets, by slot.
#[derive(Default)]
pub struct Sets([Option<Set>; SETS]);

impl Sets {
    pub fn slot(identifier: i32) -> usize {
        identifier as usize % SETS
    }

    pub fn add(&mut self, set: Set) {
        let slot = Sets::slot(set.identifier);
        self.0[slot] = Some(set);
    }

    pub fn remove(&mut self, identifier: i32) {
        self.0[Sets::slot(identifier)] = None;
    }

    pub fn find(&self, identifier: i32) -> Result<&Set, Errno> {
        self.iter().find(|set| set.identifier == identifier).ok_or(EINVAL)
    }

    pub fn find_mut(&mut self, identifier: i32) -> Result<&mut Set, Errno> {
        let mut sets = self.0.iter_mut().flatten();
        sets.find(|set| set.identifier == identifier).ok_or(EINVAL)
    }

    /// The set of a key; IPC_PRIVATE is no set's.
    pub fn with_key(&self, key: i32) -> Option<&Set> {
        self.iter().find(|set| key != PRIVATE && set.key == key)
    }

    pub fn in_slot(&self, slot: i32) -> Result<&Set, Errno> {
        let slot = usize::try_from(slot).ok();
        slot.and_then(|slot| self.0.get(slot)?.as_ref()).ok_or(EINVAL)
    }

    pub fn iter(&self) -> impl Iterator<Item = &Set> {
        self.0.iter().flatten()
    }
}

#[cfg(test)]
mod tests {
    use super::*;
    use crate::caller::ProcessId;

    fn set(identifier: i32, key: i32, mode: u16) -> Set {
        let owner = Role { user: 7, group: 9 };
        let (count, operated, changed) = (2, 0, 0);
        Set { identifier, key, owner, mode, count, operated, changed, lasts: [0; 8] }
    }

    fn caller(user: u32, group: u32) -> Caller {
        let (process, role) = (ProcessId(1), Role { user, group });
        Caller { process, pid: 1, role, groups: vec![5].into() }
    }

    /// One class alone counts, the first that fits; user 0 passes.
    #[test]
    fn a_mode_is_asked_by_class() {
        let (owner, group, other) = (caller(7, 9), caller(8, 9), caller(8, 8));
        for bits in 0..8 {
            for asked in [1, READ, ALTER, READ | ALTER, 7] {
                let granted = asked & !bits == 0;
                assert_eq!(set(0, 0, bits << 6).permits(&owner, asked).is_ok(), granted);
                assert_eq!(set(0, 0, bits << 3).permits(&group, asked).is_ok(), granted);
                assert_eq!(set(0, 0, bits).permits(&other, asked).is_ok(), granted);
                assert!(set(0, 0, 0o777 & !(7 << 6)).permits(&owner, asked).is_err());
                assert!(set(0, 0, 0o777 & !(7 << 3)).permits(&group, asked).is_err());
                assert!(set(0, 0, 0).permits(&caller(0, 1), asked).is_ok());
                let also = Set { owner: Role { user: 7, group: 5 }, ..set(0, 0, bits << 3) };
                assert_eq!(also.permits(&other, asked).is_ok(), granted);
            }
        }
    }

    #[test]
    fn sets_are_found_by_identifier_key_and_slot() {
        let mut sets = Sets::default();
        sets.add(set(4, 55, 0));
        sets.add(set(2, PRIVATE, 0));
        assert_eq!(sets.find(4).map(|set| set.key), Ok(55));
        assert_eq!(sets.find(0).map(|set| set.key), Err(EINVAL));
        assert_eq!(sets.find(-1).map(|set| set.key), Err(EINVAL));
        assert_eq!(sets.with_key(55).map(|set| set.identifier), Some(4));
        assert!(sets.with_key(PRIVATE).is_none());
        assert_eq!(sets.in_slot(2).map(|set| set.identifier), Ok(2));
        for slot in [1, 3, 4, -1] {
            assert_eq!(sets.in_slot(slot).map(|set| set.identifier), Err(EINVAL));
        }
        sets.remove(4);
        assert!(sets.with_key(55).is_none() && sets.find(4).is_err());
        assert_eq!(sets.iter().count(), 1);
    }

    #[test]
    fn a_done_array_names_its_process_last() {
        let mut set = set(0, 0, 0);
        set.operated_by(70, &[Operation::new(1, 0), Operation::new(1, -1)], 5);
        assert_eq!((set.lasts[..3].to_vec(), set.operated, set.changed), (vec![0, 70, 0], 5, 0));
    }
}
