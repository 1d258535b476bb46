//! What is measured of both programs on one file.

use std::fs;
use std::path::PathBuf;

use crate::count;
use crate::program::Program;
use crate::sample::Sample;

/// Runs for the peak memory, which varies a little.
pub const MEMORY_RUNS: usize = 5;

/// A run file, and what was measured of both programs on it.
pub struct Measured {
    pub name: String,
    pub path: PathBuf,
    pub bytes: u64,
    pub events: usize,
    pub sides: [Side; 2],
}

/// What was measured of one program on one file.
#[derive(Default)]
pub struct Side {
    pub samples: Vec<Sample>,
    pub instructions: Option<u64>,
    pub peak_kib: Option<u64>,
}

impl Measured {
    /// The file, if both programs write the same for it.
    pub fn compared(programs: &[Program; 2], path: PathBuf) -> Result<Measured, String> {
        let name = path.file_stem().unwrap_or_default().to_string_lossy().to_string();
        let [replay, second] = programs;
        let lines = replay.output(&path)?;
        if lines != second.output(&path)? {
            return Err(format!("the programs write different lines for {name}"));
        }
        let bytes = fs::metadata(&path).map_err(|error| error.to_string())?.len();
        let text = String::from_utf8_lossy(&lines);
        let first = text.lines().next().unwrap_or_default();
        let events = first.strip_prefix("events ").and_then(|number| number.parse().ok());
        let events = events.ok_or_else(|| format!("{name} is no good run file: {first}"))?;
        Ok(Measured { name, path, bytes, events, sides: Default::default() })
    }

    /// A timed run of each program, side `first` before the other.
    pub fn time(&mut self, programs: &[Program; 2], first: usize) -> Result<(), String> {
        for side in [first, 1 - first] {
            let sample = programs[side].time(&self.path)?;
            self.sides[side].samples.push(sample);
        }
        Ok(())
    }

    pub fn count(&mut self, programs: &[Program; 2]) -> Result<(), String> {
        for (program, side) in programs.iter().zip(&mut self.sides) {
            side.instructions = count::instructions(program, &self.path)?;
            for _ in 0..MEMORY_RUNS {
                side.peak_kib = side.peak_kib.max(count::peak_kib(program, &self.path)?);
            }
        }
        Ok(())
    }
}
