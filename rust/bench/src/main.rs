//! Measures two programs that replay run files: outputs are compared first, then both run on each
//! file in turn, several rounds. What comes out is Markdown.

#![forbid(unsafe_code)]

mod count;
mod machine;
mod measured;
mod program;
mod sample;
mod table;

use std::process::ExitCode;

use measured::Measured;
use program::Program;

const USAGE: &str = "usage: bench ROUNDS REPLAY SECOND NO_EVENTS FILE...
Measures the programs REPLAY and SECOND on a run file without events, which shows what the start of
a program takes, and on run files over 60000 bytes each.";

/// A file is measured from this size on.
const LONG: u64 = 60_000;

fn main() -> ExitCode {
    let arguments: Vec<String> = std::env::args().skip(1).collect();
    match measure(&arguments) {
        Ok(text) => {
            print!("{text}");
            ExitCode::SUCCESS
        }
        Err(words) => {
            eprintln!("bench: {words}");
            ExitCode::FAILURE
        }
    }
}

/// The whole measurement, as Markdown.
fn measure(arguments: &[String]) -> Result<String, String> {
    let (rounds, programs, paths) = match arguments {
        [rounds, replay, second, paths @ ..] if paths.len() > 1 => {
            let rounds = rounds.parse::<usize>().ok().filter(|&rounds| rounds > 0).ok_or(USAGE)?;
            (rounds, [Program(replay.into()), Program(second.into())], paths)
        }
        _ => return Err(USAGE.to_string()),
    };
    let compare = |path: &String| Measured::compared(&programs, path.into());
    let mut files = paths.iter().map(compare).collect::<Result<Vec<_>, _>>()?;
    if files[0].events != 0 {
        return Err(format!("{} has events", files[0].name));
    }
    if let Some(short) = files[1..].iter().find(|file| file.bytes <= LONG) {
        return Err(format!("{} has {} bytes, not over {LONG}", short.name, short.bytes));
    }
    eprintln!("bench: the outputs are equal");
    time(&programs, &mut files, rounds)?;
    for file in &mut files {
        file.count(&programs)?;
        eprintln!("bench: {} is counted", file.name);
    }
    let least_kib = count::peak_kib(&Program("true".into()), &files[0].path)?;
    Ok(format!("{}\n{}", machine::words(rounds), table::tables(&files, least_kib)))
}

/// Each round runs both programs on each file, now one first and now the other.
fn time(programs: &[Program; 2], files: &mut [Measured], rounds: usize) -> Result<(), String> {
    for round in 0..rounds {
        for (index, file) in files.iter_mut().enumerate() {
            file.time(programs, (round + index) % 2)?;
        }
    }
    eprintln!("bench: {rounds} rounds are timed");
    Ok(())
}
