//! The comparison of the programs, file after file.

use std::path::PathBuf;
use std::time::Instant;

use crate::check::{Difference, Programs};
use crate::end::End;
use crate::options::Options;
use crate::program::{Feed, Program};
use crate::tally::Tally;
use crate::traffic::{Files, FILES};
use crate::work;

/// What one worker saw.
#[derive(Default)]
struct Seen {
    tally: Tally,
    difference: Option<(u64, Difference)>,
}

pub fn run(arguments: &[String]) -> Result<End, String> {
    let known = ["--files", "--seed", "--quick", "--plain", "--second", "--c", "--rust"];
    let options = Options::parse(arguments, &known)?;
    let (files, seed) = (options.number("--files", FILES)?, options.number("--seed", 1)?);
    let programs = programs(&options)?;
    let all = Files::new(seed);
    let begin = Instant::now();
    let seen = work::share(files, "files", |seen: &mut Seen, index| {
        let file = all.get(index).bytes;
        let feed = if index % 16 == 5 { Feed::Pieces } else { Feed::Whole };
        let texts = programs.compare(&file, feed);
        if let Err(difference) = texts.and_then(|texts| seen.tally.add(&file, &texts)) {
            seen.difference = Some((index, difference));
        }
        seen.difference.is_none()
    });
    let mut tally = Tally::default();
    let mut differences = Vec::new();
    for one in seen {
        tally.merge(one.tally);
        differences.extend(one.difference);
    }
    if let Some((index, difference)) = differences.into_iter().min() {
        println!("seed {seed}, file {index} ({}): {difference}", all.get(index).kind);
        report_kept(&format!("seed-{seed}-file-{index}.run"), &all.get(index).bytes);
        return Ok(End::Bad);
    }
    println!("seed {seed}, {:.1} seconds", begin.elapsed().as_secs_f64());
    print!("{}", tally.table());
    Ok(report_missing(&tally))
}

fn programs(options: &Options) -> Result<Programs, String> {
    let program = |name: &str, arguments| {
        let path = options.existing(name)?;
        Ok::<Program, String>(Program { path, arguments })
    };
    Ok(Programs {
        quick: program("--quick", &[])?,
        plain: program("--plain", &[])?,
        second_quick: program("--second", &[])?,
        second_plain: program("--second", &["--plain"])?,
        library: ["--c", "--rust"]
            .iter()
            .filter(|name| options.text(name).is_some())
            .map(|name| program(name, &[]))
            .collect::<Result<_, _>>()?,
    })
}

fn report_kept(name: &str, file: &[u8]) {
    match keep(name, file) {
        Ok(path) => println!("the file is kept as {}", path.display()),
        Err(error) => println!("the file can't be kept: {error}"),
    }
}

/// Keeps the file in a temporary folder.
fn keep(name: &str, file: &[u8]) -> std::io::Result<PathBuf> {
    let folder = std::env::temp_dir().join(format!("compare-{}", std::process::id()));
    std::fs::create_dir_all(&folder)?;
    let path = folder.join(name);
    std::fs::write(&path, file)?;
    Ok(path)
}

fn report_missing(tally: &Tally) -> End {
    let missing = tally.missing();
    if missing.is_empty() {
        println!("no difference; all that has to come came");
        return End::Good;
    }
    println!("no difference, but these never came: {}", missing.join(", "));
    End::Bad
}
