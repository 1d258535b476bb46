//! Reads a run file from standard input and writes a line for each event.

#![forbid(unsafe_code)]

use std::io::{self, Read, Write};
use std::process::ExitCode;

use second::{replay, Rule, FILE_MAX};

const USAGE: &str = "usage: second [--plain] < RUN_FILE
Replays the run file by the quick rule, with --plain by the plain rule.";

fn main() -> ExitCode {
    let rule = match rule_asked_for() {
        Some(rule) => rule,
        None => {
            eprintln!("{USAGE}");
            return ExitCode::from(2);
        }
    };
    match run(rule) {
        Ok(()) => ExitCode::SUCCESS,
        Err(error) => {
            eprintln!("second: {error}");
            ExitCode::FAILURE
        }
    }
}

fn rule_asked_for() -> Option<Rule> {
    let mut arguments = std::env::args_os().skip(1);
    match (arguments.next(), arguments.next()) {
        (None, _) => Some(Rule::Quick),
        (Some(argument), None) if argument == "--plain" => Some(Rule::Plain),
        _ => None,
    }
}

fn run(rule: Rule) -> io::Result<()> {
    // One byte more than a run file may have shows that it is too long; what follows is not read.
    let limit = FILE_MAX + 1;
    let mut file = Vec::with_capacity(limit);
    io::stdin().lock().take(limit as u64).read_to_end(&mut file)?;
    let mut output = io::stdout().lock();
    output.write_all(&replay(&file, rule))?;
    output.flush()
}
