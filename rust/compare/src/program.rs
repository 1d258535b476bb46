//! Runs a program on a file over a pipe.

use std::io::{Read, Write};
use std::path::PathBuf;
use std::process::{Child, ChildStdin, Command, Stdio};
use std::sync::mpsc;
use std::thread;
use std::time::Duration;

use second::FILE_MAX;

/// A program that takes longer than this on one file is stopped.
const PATIENCE: Duration = Duration::from_secs(20);
/// What a program gets to read, at most, behind a file that is too long already.
const ENDLESS: usize = 8 << 20;

#[derive(Clone)]
pub struct Program {
    pub path: PathBuf,
    pub arguments: &'static [&'static str],
}

/// How the file is written into the pipe.
#[derive(Clone, Copy, PartialEq, Eq)]
pub enum Feed {
    Whole,
    /// In several pieces with a pause between them.
    Pieces,
}

impl Program {
    /// The command as one would type it.
    pub fn name(&self) -> String {
        let mut name = self.path.display().to_string();
        for argument in self.arguments {
            name += " ";
            name += argument;
        }
        name
    }

    /// What the program writes for the file. It must end well, without a word on standard error
    /// and, where the file is too long, without reading it to an end that may never come.
    pub fn run(&self, file: &[u8], feed: Feed) -> Result<Vec<u8>, String> {
        let mut child = Command::new(&self.path)
            .args(self.arguments)
            .stdin(Stdio::piped())
            .stdout(Stdio::piped())
            .stderr(Stdio::piped())
            .spawn()
            .map_err(|error| format!("{} can't be started: {error}", self.name()))?;
        let result = talk(&mut child, file, feed);
        let status = child.wait().map_err(|error| error.to_string())?;
        let (stdout, stderr) = result?;
        if !stderr.is_empty() {
            return Err(format!("on standard error: {}", String::from_utf8_lossy(&stderr)));
        }
        if !status.success() {
            return Err(format!("ended with {status}"));
        }
        Ok(stdout)
    }
}

/// Writes the file and reads both outputs to their ends.
fn talk(child: &mut Child, file: &[u8], feed: Feed) -> Result<(Vec<u8>, Vec<u8>), String> {
    let pipes = (child.stdin.take(), child.stdout.take(), child.stderr.take());
    let (stdin, mut stdout, mut stderr) = match pipes {
        (Some(stdin), Some(stdout), Some(stderr)) => (stdin, stdout, stderr),
        _ => return Err("no pipes".to_string()),
    };
    let (sender, receiver) = mpsc::channel();
    thread::scope(|scope| {
        let writer = scope.spawn(move || write_file(stdin, file, feed));
        scope.spawn(move || {
            let (mut output, mut errors) = (Vec::new(), Vec::new());
            let read = stdout.read_to_end(&mut output).and(stderr.read_to_end(&mut errors));
            // Nobody listens any more only where the program was stopped.
            let _ = sender.send(read.map(|_| (output, errors)));
        });
        let read = receiver.recv_timeout(PATIENCE);
        if read.is_err() {
            child.kill().map_err(|error| error.to_string())?;
        }
        writer.join().map_err(|_| "the writer failed".to_string())??;
        let read = read.map_err(|_| format!("no end after {} seconds", PATIENCE.as_secs()))?;
        read.map_err(|error| error.to_string())
    })
}

/// A program may close the pipe early; that shows in its output, if it was wrong.
fn write_file(mut pipe: ChildStdin, file: &[u8], feed: Feed) -> Result<(), String> {
    let piece = match feed {
        Feed::Whole => file.len().max(1),
        Feed::Pieces => file.len() / 3 + 1,
    };
    for (index, part) in file.chunks(piece).enumerate() {
        if index > 0 {
            thread::sleep(Duration::from_millis(2));
        }
        if pipe.write_all(part).is_err() {
            return Ok(());
        }
    }
    if file.len() > FILE_MAX && pipe.write_all(&vec![0; ENDLESS]).is_ok() {
        return Err(format!("reads on for ever: {} bytes and more", file.len() + ENDLESS));
    }
    Ok(())
}
