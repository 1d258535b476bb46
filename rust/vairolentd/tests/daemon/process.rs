//! Another process, which calls and then stays.

use std::fs;
use std::os::unix::process::CommandExt;
use std::path::PathBuf;
use std::process::{Child, Command, Stdio};

use vairolentd::system::{Readable, Socket};

use crate::daemon::until;

extern "C" {
    fn dup(descriptor: i32) -> i32;
}

pub struct Process(Child);

impl Process {
    /// One that has sent each of these packets over a connection of its own, all of them open.
    pub fn with(path: PathBuf, packets: Vec<Vec<u8>>) -> Process {
        let calls = move || {
            for packet in &packets {
                let socket = Socket::connect(&path)?;
                socket.send(packet)?;
                // SAFETY: it takes a number. The copy stays open when the program begins.
                unsafe { dup(socket.descriptor()) };
            }
            Ok(())
        };
        let mut command = Command::new("sleep");
        command.arg("600").stdin(Stdio::null()).stdout(Stdio::null());
        // SAFETY: the calls are those of the C library, and take no lock.
        unsafe { command.pre_exec(calls) };
        Process(command.spawn().expect("started, and its packets are sent"))
    }

    pub fn pid(&self) -> u32 {
        self.0.id()
    }

    /// Kills it, and does not reap it yet.
    pub fn leave_dead(&mut self) {
        let stat = format!("/proc/{}/stat", self.pid());
        let _ = self.0.kill();
        until("dead", || fs::read_to_string(&stat).map_or(false, |text| text.contains(") Z ")));
    }

    pub fn kill(&mut self) {
        let _ = self.0.kill();
        let _ = self.0.wait();
    }
}

impl Drop for Process {
    fn drop(&mut self) {
        self.kill();
    }
}
