//! A daemon that runs.

use std::fs::{self, OpenOptions};
use std::io::{BufRead, BufReader, Write};
use std::os::unix::fs::OpenOptionsExt;
use std::process::{Child, Command};
use std::sync::{Arc, Mutex, MutexGuard};
use std::thread::{self, JoinHandle};
use std::time::{Duration, Instant};

use crate::folder::Folder;
use crate::runs;

/// Whatever takes longer does not happen.
pub const LONG: Duration = Duration::from_secs(10);

pub const SIGTERM: i32 = 15;
pub const SIGCONT: i32 = 18;
pub const SIGSTOP: i32 = 19;

extern "C" {
    fn kill(process: i32, signal: i32) -> i32;
}

/// Waits until it is so.
pub fn until(what: &str, mut so: impl FnMut() -> bool) {
    let begin = Instant::now();
    while !so() {
        assert!(begin.elapsed() < LONG, "not within {LONG:?}: {what}");
        thread::sleep(Duration::from_millis(1));
    }
}

pub struct Daemon {
    child: Child,
    said: Arc<Mutex<String>>,
    listener: Option<JoinHandle<()>>,
}

impl Daemon {
    /// The daemon of a folder, once it serves.
    pub fn start(folder: &Folder) -> Daemon {
        Daemon::of(folder.command())
    }

    pub fn of(mut command: Command) -> Daemon {
        let mut child = command.spawn().expect("started");
        let mut lines = BufReader::new(child.stderr.take().expect("piped")).lines();
        let said = Arc::new(Mutex::new(String::new()));
        let ears = said.clone();
        let listener = thread::spawn(move || {
            while let Some(Ok(line)) = lines.next() {
                *ears.lock().expect("whole") += &(line + "\n");
            }
        });
        let daemon = Daemon { child, said, listener: Some(listener) };
        daemon.hear("serving at");
        daemon
    }

    /// All that it has said so far.
    pub fn said(&self) -> String {
        self.said.lock().expect("whole").clone()
    }

    /// Waits until it has said this.
    pub fn hear(&self, words: &str) {
        until(words, || self.said().contains(words));
    }

    /// As long as this is kept, nobody listens: the daemon waits where it says something.
    pub fn hush(&self) -> MutexGuard<'_, String> {
        const NONBLOCK: i32 = 0o4000;
        let guard = self.said.lock().expect("whole");
        let mut options = OpenOptions::new();
        let path = format!("/proc/{}/fd/2", self.pid());
        let mut pipe = options.write(true).custom_flags(NONBLOCK).open(path).expect("its pipe");
        // The listener takes some of it once.
        for _ in 0..2 {
            thread::sleep(Duration::from_millis(5));
            while pipe.write(b"\n").is_ok() {}
        }
        guard
    }

    pub fn pid(&self) -> i32 {
        self.child.id() as i32
    }

    pub fn signal(&self, signal: i32) {
        // SAFETY: it takes two numbers.
        assert_eq!(unsafe { kill(self.pid(), signal) }, 0);
    }

    /// What happens while it stands still, it finds at once.
    pub fn standing_still(&self, happens: impl FnOnce()) {
        self.signal(SIGSTOP);
        until("it stands still", || self.shown("stat").contains(") T "));
        happens();
        self.signal(SIGCONT);
    }

    /// Ends it as one should: its status, and all that it has said.
    pub fn end(mut self) -> (Option<i32>, String) {
        self.signal(SIGTERM);
        let status = self.child.wait().expect("ended");
        self.listener.take().expect("one").join().expect("it heard all");
        (status.code(), self.said())
    }

    /// Ends it, and replays all that it has recorded: how many events.
    pub fn replay(self, folder: &Folder) -> usize {
        let (status, said) = self.end();
        assert_eq!(status, Some(0), "{said}");
        runs::replay_all(&folder.record())
    }

    /// Ends it at once.
    pub fn kill(mut self) {
        self.child.kill().expect("killed");
        self.child.wait().expect("ended");
    }

    /// What the system knows of it.
    pub fn shown(&self, file: &str) -> String {
        fs::read_to_string(format!("/proc/{}/{file}", self.pid())).expect("it lives")
    }

    /// A number in /proc/PID/status.
    pub fn number(&self, name: &str) -> u64 {
        let status = self.shown("status");
        let line = status.lines().find(|line| line.starts_with(name)).expect("a line of it");
        line.split_whitespace().nth(1).and_then(|word| word.parse().ok()).expect("a number")
    }

    /// Clock ticks that it has used, and how often it gave up the processor.
    pub fn work(&self) -> (u64, u64) {
        let stat = self.shown("stat");
        let fields = stat.rsplit(')').next().expect("fields").split_whitespace();
        let ticks = fields.skip(11).take(2).map(|field| field.parse::<u64>().expect("ticks"));
        (ticks.sum(), self.number("voluntary_ctxt_switches"))
    }

    /// Waits until it waits.
    pub fn rest(&self) {
        until("it waits", || self.shown("stat").contains(") S "));
        thread::sleep(Duration::from_millis(5));
    }

    pub fn descriptors(&self) -> usize {
        fs::read_dir(format!("/proc/{}/fd", self.pid())).expect("it lives").count()
    }
}

impl Drop for Daemon {
    fn drop(&mut self) {
        let _ = self.child.kill();
        let status = self.child.wait();
        if thread::panicking() {
            eprintln!("{status:?}, and the daemon has said:\n{}", self.said());
        }
    }
}

/// One that is to end of its own accord: its status, and all that it has said.
pub fn refused(mut command: Command) -> (Option<i32>, String) {
    let mut child = command.spawn().expect("started");
    let begin = Instant::now();
    while child.try_wait().expect("asked").is_none() {
        if begin.elapsed() > Duration::from_secs(2) {
            child.kill().expect("killed");
        }
        thread::sleep(Duration::from_millis(1));
    }
    let output = child.wait_with_output().expect("ended");
    (output.status.code(), String::from_utf8(output.stderr).expect("words"))
}
