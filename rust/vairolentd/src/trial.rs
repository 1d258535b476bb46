//! A daemon without a socket, for tests: calls by any user and group.

use std::env;
use std::fs;
use std::path::PathBuf;
use std::process;
use std::sync::atomic::{AtomicU32, Ordering};

use vairolent::Operation;

use crate::caller::{Caller, ProcessId, Role};
use crate::control::Control;
use crate::daemon::{ConnectionId, Daemon};
use crate::operate::Call;
use crate::record::Record;

/// Commands of semctl.
pub const REMOVE: i32 = 0;
pub const GET_VALUE: i32 = 12;
pub const GET_ALL: i32 = 13;
pub const SET_VALUE: i32 = 16;
pub const SET_ALL: i32 = 17;

/// Its recording is removed at the end.
pub struct Trial {
    pub daemon: Daemon,
    folder: PathBuf,
}

impl Trial {
    pub fn new() -> Trial {
        static NEXT: AtomicU32 = AtomicU32::new(0);
        let number = NEXT.fetch_add(1, Ordering::Relaxed);
        let folder = env::temp_dir().join(format!("vairolentd-trial-{}-{number}", process::id()));
        let record = Record::begin(&folder, false).expect("a temporary folder");
        Trial { daemon: Daemon::new(record), folder }
    }

    /// Makes a set of two semaphores at 0.
    pub fn make(&mut self, caller: &Caller, mode: i32) -> i32 {
        self.daemon.get(caller, 0, 2, mode).expect("made")
    }

    /// The code of a semctl on semaphore 0, whose values are 0, and its value.
    pub fn control(&mut self, caller: &Caller, identifier: i32, command: i32) -> (i32, i32) {
        let call = Control { identifier, number: 0, command, data: &[0; 4] };
        match self.daemon.control(caller, &call) {
            Ok(reply) => (reply.code, reply.value),
            Err(errno) => (errno.0, 0),
        }
    }

    /// The code of a semop, or nothing while it sleeps.
    pub fn operate(
        &mut self,
        caller: &Caller,
        identifier: i32,
        operations: &[Operation],
    ) -> Option<i32> {
        let (caller, operations) = (caller.clone(), operations.to_vec());
        let connection = ConnectionId(self.daemon.sleepers.len() as u64);
        let call = Call { caller, connection, identifier, wait: None, operations };
        self.daemon.operate(call).map(|reply| reply.code)
    }

    /// How often a number was told as whom it acts.
    pub fn told(&mut self) -> usize {
        self.daemon.engine.record().end().expect("written");
        let file = fs::read(self.folder.join("000001.run")).expect("a run file");
        let run = second::RunFile::read(&file).expect("a good one");
        run.bodies().filter(|body| body[0] == 12).count()
    }
}

impl Drop for Trial {
    fn drop(&mut self) {
        let _ = fs::remove_dir_all(&self.folder);
    }
}

/// A process of a user and its groups, the first of which is its own.
pub fn caller(process: u64, user: u32, groups: &[u32]) -> Caller {
    let (role, pid) = (Role { user, group: groups[0] }, process as i32);
    Caller { process: ProcessId(process), pid, role, groups: groups[1..].into() }
}
