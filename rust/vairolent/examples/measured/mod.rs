//! What the programs that measure have in common: a table in Markdown, with a row for each run file
//! that they are given behind the number of rounds.

use std::process::ExitCode;

use second::RunFile;

/// A table, by the name of the program that writes it.
pub struct Table {
    pub program: &'static str,
    /// The columns behind the first, which has the file's name.
    pub columns: &'static [&'static str],
    /// A file's cells in so many rounds; nothing if two sides that are measured are not alike.
    pub cells: fn(&RunFile, u32) -> Option<Vec<String>>,
}

impl Table {
    /// Writes the table of the files that the program was called with, or what is wrong with them.
    pub fn write(&self) -> ExitCode {
        let arguments: Vec<String> = std::env::args().skip(1).collect();
        match self.text(&arguments) {
            Ok(text) => {
                print!("{text}");
                ExitCode::SUCCESS
            }
            Err(words) => {
                eprintln!("{}: {words}", self.program);
                ExitCode::FAILURE
            }
        }
    }

    fn text(&self, arguments: &[String]) -> Result<String, String> {
        let usage = format!("usage: {} ROUNDS FILE...", self.program);
        let (rounds, paths) = match arguments {
            [rounds, paths @ ..] if !paths.is_empty() => (rounds.parse::<u32>().ok(), paths),
            _ => return Err(usage),
        };
        let rounds = rounds.filter(|&rounds| rounds > 0).ok_or(usage)?;
        let mut text = format!("| File | {} |\n", self.columns.join(" | "));
        text += &format!("|---|{}\n", "---:|".repeat(self.columns.len()));
        for path in paths {
            let bytes = std::fs::read(path).map_err(|error| format!("{path}: {error}"))?;
            let run = RunFile::read(&bytes).map_err(|bad| format!("{path}: bad {}", bad as i32))?;
            let cells = (self.cells)(&run, rounds).ok_or(format!("{path}: not alike"))?;
            let name = path.rsplit('/').next().unwrap_or(path).trim_end_matches(".run");
            text += &format!("| {name} | {} |\n", cells.join(" | "));
        }
        Ok(text)
    }
}
