//! Makes run files from a seed, and compares the programs that replay them.

#![forbid(unsafe_code)]

mod call;
mod check;
mod checks;
mod choice;
mod class;
mod clock;
mod counts;
mod damage;
mod deciding;
mod end;
mod events;
mod everyday;
mod faults;
mod grants;
mod kind;
mod lengths;
mod line;
mod long;
mod medley;
mod modes;
mod options;
mod positions;
mod program;
mod random;
mod refusal;
mod rights;
mod scene;
mod script;
mod standing;
mod steady;
mod sweep;
mod tally;
mod times;
mod traffic;
mod users;
mod values;
mod versus;
mod waits;
mod wholes;
mod work;
mod world;
mod zeros;

use std::process::ExitCode;

use end::End;
use options::Options;
use random::Rng;
use traffic::Files;

const USAGE: &str = "usage:
  compare [--files N] [--seed S] --quick REPLAY --plain REPLAY_PLAIN --second SECOND
          [--c PROGRAM] [--rust PROGRAM]
      Runs the programs on files 0 to N-1 of the seed and compares every byte. The last two replay
      through the library, from C and from Rust: they have to write what REPLAY writes.
  compare generate --kind K [--seed S] [--bytes N] --out FILE
      Writes one file of the kind, filled up to N bytes (65535).
  compare generate --file I [--seed S] --out FILE
      Writes file I of the seed, as the comparison makes it.
  compare faults [--files N] [--seed S] --source SECOND_FOLDER --edits FOLDER
      Builds a copy of the second program for each edit, and shows that it is noticed.
Status: 0 as wanted, 1 a difference, something that never came, or a fault not noticed; 2 usage.

Kinds:";

fn main() -> ExitCode {
    let arguments: Vec<String> = std::env::args().skip(1).collect();
    let result = match arguments.first().map(String::as_str) {
        Some("--help" | "-h") => {
            println!("{}", usage());
            Ok(End::Good)
        }
        Some("generate") => generate(&arguments[1..]),
        Some("faults") => faults::run(&arguments[1..]),
        Some(_) => versus::run(&arguments),
        None => Err(format!("nothing to do\n{}", usage())),
    };
    match result {
        Ok(End::Good) => ExitCode::SUCCESS,
        Ok(End::Bad) => ExitCode::from(1),
        Err(words) => {
            eprintln!("compare: {words}");
            ExitCode::from(2)
        }
    }
}

fn usage() -> String {
    let mut usage = USAGE.to_string();
    for kind in traffic::kinds() {
        usage += &format!("\n  {:<12} {}", kind.name, kind.about);
    }
    usage
}

fn generate(arguments: &[String]) -> Result<End, String> {
    let known = ["--kind", "--file", "--seed", "--bytes", "--out"];
    let options = Options::parse(arguments, &known)?;
    let seed = options.number("--seed", 1)?;
    let out = options.path("--out")?;
    let file = match (options.text("--kind"), options.text("--file")) {
        (Some(name), None) => {
            let kind = traffic::kind_named(name)
                .ok_or(format!("there is no kind {name:?}; compare --help lists them"))?;
            let limit = options.number("--bytes", second::FILE_MAX as u64)?;
            if !(2..=second::FILE_MAX as u64).contains(&limit) {
                return Err("--bytes needs a number from 2 to 65535".to_string());
            }
            kind.make(Rng::new(seed, 0), limit as usize)
        }
        (None, Some(_)) => Files::new(seed).get(options.number("--file", 0)?).bytes,
        _ => return Err("give either --kind or --file".to_string()),
    };
    std::fs::write(&out, file).map_err(|error| format!("{}: {error}", out.display()))?;
    Ok(End::Good)
}
