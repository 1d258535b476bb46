//! A folder for one test: the daemon's socket, and its recording.

use std::env;
use std::fs;
use std::path::{Path, PathBuf};
use std::process::{self, Command, Stdio};
use std::sync::atomic::{AtomicU32, Ordering};

/// It is removed at the end.
pub struct Folder(PathBuf);

impl Folder {
    pub fn new() -> Folder {
        static NEXT: AtomicU32 = AtomicU32::new(0);
        let number = NEXT.fetch_add(1, Ordering::Relaxed);
        let path = env::temp_dir().join(format!("vairolentd-{}-{number}", process::id()));
        fs::create_dir_all(&path).expect("a temporary folder");
        Folder(path)
    }

    pub fn path(&self) -> &Path {
        &self.0
    }

    pub fn socket(&self) -> PathBuf {
        self.0.join("socket")
    }

    pub fn record(&self) -> PathBuf {
        self.0.join("record")
    }

    /// The daemon of this folder.
    pub fn command(&self) -> Command {
        self.command_with(&self.socket(), &self.record())
    }

    /// A daemon with another socket or another recording.
    pub fn command_with(&self, socket: &Path, record: &Path) -> Command {
        let mut command = program();
        command.arg("--answers").arg("--socket").arg(socket).arg("--record").arg(record);
        command
    }

    /// The daemon of this folder, started by a shell within a limit.
    pub fn limited(&self, limit: &str) -> Command {
        let mut command = Command::new("sh");
        command.arg("-c").arg(format!("ulimit {limit} && exec \"$0\" \"$@\""));
        let plain = self.command();
        command.arg(plain.get_program()).args(plain.get_args());
        with_pipes(command)
    }
}

impl Drop for Folder {
    fn drop(&mut self) {
        let _ = fs::remove_dir_all(&self.0);
    }
}

/// The program, without arguments.
pub fn program() -> Command {
    let mut command = Command::new(env!("CARGO_BIN_EXE_vairolentd"));
    command.env_remove("VAIROLENT_SOCKET");
    with_pipes(command)
}

fn with_pipes(mut command: Command) -> Command {
    command.stdin(Stdio::null()).stdout(Stdio::piped()).stderr(Stdio::piped());
    command
}
