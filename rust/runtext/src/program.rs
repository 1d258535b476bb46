//! Runs the program that replays, and reads its lines.

use std::io::Write;
use std::path::PathBuf;
use std::process::{Command, Output, Stdio};
use std::thread;

/// A program that replays the run file on its standard input.
pub struct Program(pub PathBuf);

/// What the program wrote for a file.
#[derive(Clone, Debug, PartialEq, Eq)]
pub enum Replay {
    /// The code behind `bad`.
    Refused(u16),
    /// The line of each event, without its position.
    Lines(Vec<String>),
}

impl Program {
    /// The proved program of the repository in whose folder `target` this one was built.
    pub fn proved() -> Program {
        let here = std::env::current_exe().unwrap_or_default();
        let target = here.ancestors().find(|folder| folder.ends_with("target"));
        Program(target.map_or("target".into(), PathBuf::from).join("bin/replay"))
    }

    pub fn replay(&self, file: &[u8]) -> Result<Replay, String> {
        let name = self.0.display();
        if !self.0.is_file() {
            let built = "tools/build-programs makes target/bin/replay, once `rt check` has proved it";
            return Err(format!("there is no program {name}; {built}"));
        }
        let output = self.run(file).map_err(|error| format!("{name}: {error}"))?;
        if !output.status.success() || !output.stderr.is_empty() {
            let words = String::from_utf8_lossy(&output.stderr);
            return Err(format!("{name} ended with {}: {words}", output.status));
        }
        let text = String::from_utf8_lossy(&output.stdout);
        read(&text).ok_or_else(|| format!("{name} wrote other lines than a replay has:\n{text}"))
    }

    fn run(&self, file: &[u8]) -> std::io::Result<Output> {
        let mut child = Command::new(&self.0)
            .stdin(Stdio::piped())
            .stdout(Stdio::piped())
            .stderr(Stdio::piped())
            .spawn()?;
        let pipe = child.stdin.take();
        thread::scope(|scope| {
            // A program may end before it has read all; its output shows whether that was right.
            scope.spawn(|| pipe.map(|mut pipe| pipe.write_all(file)));
            child.wait_with_output()
        })
    }
}

/// The text of a replay: `bad` and a code alone, or `events`, their number and a line for each.
fn read(text: &str) -> Option<Replay> {
    let mut lines = text.strip_suffix('\n')?.split('\n');
    let first = lines.next()?;
    if let Some(code) = first.strip_prefix("bad ") {
        let refused = Replay::Refused(code.parse().ok()?);
        return Some(refused).filter(|_| lines.next().is_none());
    }
    let events: usize = first.strip_prefix("events ")?.parse().ok()?;
    let behind_position = |(position, line): (usize, &str)| {
        let fields = line.strip_prefix(&format!("{position} "))?;
        Some(fields.to_string())
    };
    let lines: Vec<String> = lines.enumerate().map(behind_position).collect::<Option<_>>()?;
    Some(Replay::Lines(lines)).filter(|_| text.matches('\n').count() == events + 1)
}

#[cfg(test)]
mod tests {
    use super::*;

    #[test]
    fn texts_of_a_replay() {
        assert_eq!(read("bad 202\n"), Some(Replay::Refused(202)));
        assert_eq!(read("events 0\n"), Some(Replay::Lines(vec![])));
        let lines = vec!["0 0 0".to_string(), "-1@0 0 0".to_string()];
        assert_eq!(read("events 2\n0 0 0 0\n1 -1@0 0 0\n"), Some(Replay::Lines(lines)));
    }

    #[test]
    fn other_texts() {
        let texts = [
            "",
            "bad 202",
            "bad 202\n\n",
            "events 1\n",
            "events 0\n0 0 0 0\n",
            "events 1\n1 0 0 0\n",
        ];
        for text in texts {
            assert_eq!(read(text), None, "{text:?}");
        }
    }
}
