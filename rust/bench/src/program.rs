//! Runs of a program on a file.

use std::fs::{self, File};
use std::io::Read;
use std::path::{Path, PathBuf};
use std::process::{Child, Command, Stdio};
use std::thread;
use std::time::{Duration, Instant};

use crate::sample::Sample;

pub struct Program(pub PathBuf);

impl Program {
    /// The program under another one that watches it, on a file; both outputs are kept.
    pub fn under(&self, watcher: &[&str], file: &Path) -> Result<Command, String> {
        let mut command = match watcher.split_first() {
            None => Command::new(&self.0),
            Some((first, rest)) => {
                let mut command = Command::new(first);
                command.args(rest).arg(&self.0);
                command
            }
        };
        let input = File::open(file).map_err(|error| format!("{}: {error}", file.display()))?;
        command.stdin(input).stdout(Stdio::piped()).stderr(Stdio::piped());
        Ok(command)
    }

    /// What the program writes for the file.
    pub fn output(&self, file: &Path) -> Result<Vec<u8>, String> {
        let output = self.under(&[], file)?.output().map_err(|error| self.failed(&error))?;
        if !output.status.success() || !output.stderr.is_empty() {
            return Err(self.failed(&output.status));
        }
        Ok(output.stdout)
    }

    fn failed(&self, why: &dyn std::fmt::Display) -> String {
        format!("{}: {why}", self.0.display())
    }

    /// One timed run; what it writes goes nowhere.
    pub fn time(&self, file: &Path) -> Result<Sample, String> {
        let mut command = self.under(&[], file)?;
        command.stdout(Stdio::null());
        let begin = Instant::now();
        let mut child = command.spawn().map_err(|error| self.failed(&error))?;
        // Standard error ends with the program.
        let mut nothing = Vec::new();
        if let Some(mut stderr) = child.stderr.take() {
            stderr.read_to_end(&mut nothing).map_err(|error| self.failed(&error))?;
        }
        let whole = begin.elapsed();
        let processor = processor_time(&child);
        let status = child.wait().map_err(|error| self.failed(&error))?;
        if !status.success() || !nothing.is_empty() {
            return Err(self.failed(&status));
        }
        Ok(Sample { whole, processor })
    }
}

/// The time that an ended child was running on a processor. Until it is waited for, the kernel
/// keeps the figure, which doesn't count what other processes took.
fn processor_time(child: &Child) -> Option<Duration> {
    let folder = PathBuf::from(format!("/proc/{}", child.id()));
    loop {
        let status = fs::read_to_string(folder.join("stat")).ok()?;
        let (_, behind_name) = status.rsplit_once(") ")?;
        if behind_name.starts_with('Z') {
            break;
        }
        thread::sleep(Duration::from_micros(20));
    }
    let schedule = fs::read_to_string(folder.join("schedstat")).ok()?;
    let nanoseconds = schedule.split(' ').next()?.parse().ok()?;
    Some(Duration::from_nanos(nanoseconds)).filter(|time| !time.is_zero())
}
