//! The commands: a text to a run file, a run file to a text, either to a story.

#![forbid(unsafe_code)]

use std::io::{self, Read, Write};
use std::process::ExitCode;

use runtext::program::Program;
use runtext::{help, parse, print, runfile, story};

/// Why a command fails, in words.
enum Failure {
    /// The run file is refused, or the program or a file fails.
    Refused(String),
    /// Wrong arguments, or a mistake in the text.
    Mistake(String),
}

/// The arguments behind the command.
#[derive(Default)]
struct Arguments {
    program: Option<String>,
    run: bool,
    file: Option<String>,
}

fn main() -> ExitCode {
    let arguments: Vec<String> = std::env::args().skip(1).collect();
    let (status, words) = match command(&arguments).and_then(|output| write(&output)) {
        Ok(()) => return ExitCode::SUCCESS,
        Err(Failure::Refused(words)) => (1, words),
        Err(Failure::Mistake(words)) => (2, words),
    };
    eprintln!("{words}");
    ExitCode::from(status)
}

/// What the command writes.
fn command(arguments: &[String]) -> Result<Vec<u8>, Failure> {
    let (command, rest) = match arguments.split_first() {
        Some((command, rest)) => (command.as_str(), Arguments::read(command, rest)?),
        None => return Err(Failure::Mistake(help::text().trim_end().to_string())),
    };
    match command {
        "--help" | "-h" => Ok(help::text().into()),
        "assemble" => rest.assembled(),
        "disassemble" => {
            let events = runfile::read(&rest.input()?);
            let refused = |refusal| Failure::Refused(format!("{}{refusal}", rest.place()));
            Ok(print::text(&events.map_err(refused)?).into())
        }
        "story" => {
            let file = if rest.run { rest.input()? } else { rest.assembled()? };
            let program = rest.program.map_or_else(Program::proved, |path| Program(path.into()));
            Ok(story::tell(&program, &file).map_err(Failure::Refused)?.into())
        }
        _ => Err(usage(&format!("there is no command {command}"))),
    }
}

fn usage(words: &str) -> Failure {
    Failure::Mistake(format!("runtext: {words}; runtext --help shows what there is"))
}

impl Arguments {
    /// At most one file; the options are those of a story.
    fn read(command: &str, words: &[String]) -> Result<Arguments, Failure> {
        let mut arguments = Arguments::default();
        let mut words = words.iter();
        while let Some(word) = words.next() {
            match word.as_str() {
                "--program" if command == "story" => {
                    let path = words.next().ok_or_else(|| usage("--program needs a path"))?;
                    arguments.program = Some(path.clone());
                }
                "--run" if command == "story" => arguments.run = true,
                option if option.starts_with('-') && option != "-" => {
                    return Err(usage(&format!("{command} has no option {option}")));
                }
                _ if arguments.file.is_some() => return Err(usage("more than one file is given")),
                file => arguments.file = Some(file.to_string()),
            }
        }
        Ok(arguments)
    }

    fn input(&self) -> Result<Vec<u8>, Failure> {
        let mut bytes = Vec::new();
        let read = match self.file.as_deref() {
            None | Some("-") => io::stdin().lock().read_to_end(&mut bytes).map(|_| bytes),
            Some(path) => std::fs::read(path),
        };
        read.map_err(|error| Failure::Refused(format!("{}{error}", self.place())))
    }

    /// The run file of the text.
    fn assembled(&self) -> Result<Vec<u8>, Failure> {
        match parse::events(&self.input()?) {
            Ok(events) => Ok(runfile::write(&events)),
            // With a file, in the form that editors can jump to.
            Err(mistake) => Err(Failure::Mistake(match self.file.as_deref() {
                None | Some("-") => mistake.to_string(),
                Some(path) => format!("{path}:{mistake}"),
            })),
        }
    }

    /// The file's name in front of a message.
    fn place(&self) -> String {
        match self.file.as_deref() {
            None | Some("-") => String::new(),
            Some(path) => format!("{path}: "),
        }
    }
}

/// Who reads may stop early.
fn write(output: &[u8]) -> Result<(), Failure> {
    let mut stdout = io::stdout().lock();
    match stdout.write_all(output).and_then(|_| stdout.flush()) {
        Err(error) if error.kind() != io::ErrorKind::BrokenPipe => {
            Err(Failure::Refused(format!("standard output: {error}")))
        }
        _ => Ok(()),
    }
}
