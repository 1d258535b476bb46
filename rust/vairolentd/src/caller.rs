//! Who calls.

use std::rc::Rc;

/// A process as the daemon knows it: one that lives, and no later one of the same pid.
#[derive(Clone, Copy, Debug, PartialEq, Eq, Hash)]
pub struct ProcessId(pub u64);

/// A user and a group: as whom the service judges a process, and whose a set is.
#[derive(Clone, Copy, Debug, Default, PartialEq, Eq)]
pub struct Role {
    pub user: u32,
    pub group: u32,
}

impl Role {
    /// User 0, who passes every permission. In a fresh host every number is that.
    pub const ROOT: Role = Role { user: 0, group: 0 };
}

/// A call's process, with the user and the groups that its connection has.
#[derive(Clone, Debug, PartialEq, Eq)]
pub struct Caller {
    pub process: ProcessId,
    pub pid: i32,
    /// The effective ones.
    pub role: Role,
    /// Those that it is in besides.
    pub groups: Rc<[u32]>,
}

impl Caller {
    pub fn is_in(&self, group: u32) -> bool {
        self.role.group == group || self.groups.contains(&group)
    }
}
