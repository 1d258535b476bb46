//! What a daemon has recorded.

use std::fs;
use std::path::Path;

use second::{Rule, RunFile, FILE_MAX};

/// A file of the recording, with the lines of its answers.
pub struct Run {
    pub name: String,
    pub bytes: Vec<u8>,
    pub lines: String,
}

impl Run {
    pub fn read(path: &Path) -> Run {
        let bytes = fs::read(path).expect("a run file");
        assert!(bytes.len() <= FILE_MAX, "{}", path.display());
        // Who is killed right at the beginning of a file has no lines yet.
        let lines = fs::read_to_string(path.with_extension("lines")).unwrap_or_default();
        let name = path.file_name().expect("a name").to_string_lossy().into_owned();
        Run { name, bytes, lines }
    }

    /// How many events it has, as it says itself.
    pub fn events(&self) -> usize {
        usize::from(u16::from_le_bytes([self.bytes[0], self.bytes[1]]))
    }

    /// The bodies of its events, but those of kind 12: as whom a number acts depends on who runs this.
    pub fn bodies(&self) -> Vec<&[u8]> {
        let run = RunFile::read(&self.bytes).expect("a good file");
        run.bodies().filter(|body| body[0] != 12).collect()
    }

    /// The lines of its answers, by the other program.
    pub fn replayed(&self) -> String {
        String::from_utf8(second::replay(&self.bytes, Rule::Quick)).expect("lines")
    }
}

/// The names in a folder, in order.
pub fn names(folder: &Path) -> Vec<String> {
    let entries = fs::read_dir(folder).expect("a folder").map(|entry| entry.expect("an entry"));
    let mut names: Vec<String> =
        entries.map(|entry| entry.file_name().to_string_lossy().into_owned()).collect();
    names.sort();
    names
}

/// The recording in a folder, in order.
pub fn all(folder: &Path) -> Vec<Run> {
    let names = names(folder).into_iter();
    let recorded = names.filter(|name| name.ends_with(".run") || name.ends_with(".more"));
    recorded.map(|name| Run::read(&folder.join(name))).collect()
}

/// Replays each file by itself, once its daemon has ended: how many bodies there are.
pub fn replay_all(folder: &Path) -> usize {
    let left = |name: &String| name.ends_with(".part") || name.ends_with(".new");
    assert!(!names(folder).iter().any(left), "everything is whole");
    let runs = all(folder);
    for run in &runs {
        assert!(run.replayed() == run.lines, "{}", run.name);
    }
    runs.iter().map(|run| run.bodies().len()).sum()
}
