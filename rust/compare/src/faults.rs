//! The fault check: copies of the second program with one fault each are told apart.
//!
//! A fault is a file: `#` and the error in words, then three lines for each change, `file:` a file in
//! src, `old:` a line that stands in it once, `new:` the line that takes its place.

use std::fs;
use std::path::{Path, PathBuf};
use std::process::Command;

use second::{replay, Rule};

use crate::end::End;
use crate::options::Options;
use crate::program::{Feed, Program};
use crate::traffic::{Files, FILES};
use crate::work;

/// Once one rule has shown a fault, the other gets this many files at most: it may be right.
const OTHER_RULE: usize = 100;

/// One fault, and the changes that make it.
struct Edit {
    name: String,
    words: String,
    changes: Vec<Change>,
}

/// In a source file, a line that stands there once becomes another.
struct Change {
    file: String,
    old: String,
    new: String,
}

pub fn run(arguments: &[String]) -> Result<End, String> {
    let options = Options::parse(arguments, &["--files", "--seed", "--source", "--edits"])?;
    let (files, seed) = (options.number("--files", FILES)?, options.number("--seed", 1)?);
    let source = options.existing("--source")?;
    let edits = read_edits(&options.existing("--edits")?)?;
    let all = Files::new(seed);
    let files: Vec<Vec<u8>> = (0..files).map(|index| all.get(index).bytes).collect();
    let work = std::env::temp_dir().join(format!("compare-faults-{}", std::process::id()));
    let check = |results: &mut Vec<(u64, Result<String, String>)>, index: u64| {
        let edit = &edits[index as usize];
        let result = check_edit(edit, &source, &work.join(&edit.name), &files);
        results.push((index, result));
        true
    };
    let mut results = work::share(edits.len() as u64, "faults", check).concat();
    results.sort_by_key(|(index, _)| *index);
    // Left-over copies do no harm.
    let _ = fs::remove_dir_all(&work);
    println!("after how many files each rule shows the fault (- not in {OTHER_RULE}):");
    let mut failed = 0;
    for (index, result) in results {
        let Edit { name, words, .. } = &edits[index as usize];
        match result {
            Ok(noticed) => println!("{name:<26}{noticed:<26}{words}"),
            Err(why) => {
                println!("{name:<26}FAILED: {why}");
                failed += 1;
            }
        }
    }
    println!("{} faults, {} noticed, {failed} failed", edits.len(), edits.len() - failed);
    Ok(if failed == 0 { End::Good } else { End::Bad })
}

fn read_edits(folder: &Path) -> Result<Vec<Edit>, String> {
    let in_folder = |error| format!("{}: {error}", folder.display());
    let mut paths = Vec::new();
    for entry in fs::read_dir(folder).map_err(in_folder)? {
        paths.push(entry.map_err(in_folder)?.path());
    }
    paths.retain(|path| path.extension().map_or(false, |extension| extension == "edit"));
    paths.sort_by_key(|path| (number_of(path), path.clone()));
    if paths.is_empty() {
        return Err(format!("{} holds no .edit file", folder.display()));
    }
    paths.iter().map(|path| read_edit(path)).collect()
}

/// The number that the name of a file begins with.
fn number_of(path: &Path) -> Option<u32> {
    path.file_name()?.to_str()?.split('-').next()?.parse().ok()
}

fn read_edit(path: &Path) -> Result<Edit, String> {
    let in_file = |words: &str| format!("{}: {words}", path.display());
    let text = fs::read_to_string(path).map_err(|error| in_file(&error.to_string()))?;
    let lines: Vec<&str> = text.lines().collect();
    let field = |index: usize, start: &str| {
        let rest = lines.get(index).and_then(|line| line.strip_prefix(start));
        let lacking = in_file(&format!("line {} does not begin with {start:?}", index + 1));
        rest.map(|rest| rest.trim().to_string()).ok_or(lacking)
    };
    let change = |index| {
        let file = field(index, "file:")?;
        Ok(Change { file, old: field(index + 1, "old:")?, new: field(index + 2, "new:")? })
    };
    let name = path.file_stem().unwrap_or_default().to_string_lossy().into_owned();
    let words = field(0, "#")?;
    // There is one change at least.
    let changes = (1..lines.len().max(2)).step_by(3).map(change).collect::<Result<_, String>>()?;
    Ok(Edit { name, words, changes })
}

/// Builds the faulty copy and says after how many files each rule shows the fault.
fn check_edit(
    edit: &Edit,
    source: &Path,
    folder: &Path,
    files: &[Vec<u8>],
) -> Result<String, String> {
    let path = build(edit, source, folder)?;
    let rules: [(Rule, &[&str]); 2] = [(Rule::Quick, &[]), (Rule::Plain, &["--plain"])];
    let programs = rules.map(|(rule, arguments)| (rule, Program { path: path.clone(), arguments }));
    let mut noticed = [None; 2];
    for (index, file) in files.iter().enumerate() {
        let open = noticed.iter().filter(|noticed| noticed.is_none()).count();
        if open == 0 || open == 1 && index >= OTHER_RULE {
            break;
        }
        for (noticed, (rule, program)) in noticed.iter_mut().zip(&programs) {
            if noticed.is_none() && program.run(file, Feed::Whole).ok() != Some(replay(file, *rule))
            {
                *noticed = Some(index + 1);
            }
        }
    }
    let words = noticed.map(|noticed| noticed.map_or("-".to_string(), |n| n.to_string()));
    match noticed {
        [None, None] => Err(format!("not noticed in {} files", files.len())),
        _ => Ok(format!("quick {:>4}, plain {:>4}", words[0], words[1])),
    }
}

/// Copies the package, puts the fault in, and builds it.
fn build(edit: &Edit, source: &Path, folder: &Path) -> Result<PathBuf, String> {
    copy(source, folder).map_err(|error| format!("no copy: {error}"))?;
    for change in &edit.changes {
        apply(change, &folder.join("src").join(&change.file))?;
    }
    let built = Command::new("cargo")
        .args(["build", "--release", "--offline", "--quiet", "--jobs", "1", "--bin", "second"])
        .arg("--target-dir")
        .arg(folder.join("target"))
        .current_dir(folder)
        .env("CARGO_HOME", folder.join("home"))
        .env("CARGO_PROFILE_RELEASE_OPT_LEVEL", "0")
        .env("CARGO_PROFILE_RELEASE_LTO", "off")
        .output()
        .map_err(|error| format!("cargo can't be started: {error}"))?;
    if !built.status.success() {
        let errors = String::from_utf8_lossy(&built.stderr);
        return Err(format!("the faulty copy does not build:\n{errors}"));
    }
    let program = folder.join("target").join("release").join("second");
    program.canonicalize().map_err(|error| format!("the build left no program: {error}"))
}

/// The copy is a workspace of its own, so that no folder above it is searched for one.
fn copy(source: &Path, folder: &Path) -> std::io::Result<()> {
    fs::create_dir_all(folder.join("src"))?;
    let package = fs::read_to_string(source.join("Cargo.toml"))?;
    fs::write(folder.join("Cargo.toml"), package + "\n[workspace]\n")?;
    for entry in fs::read_dir(source.join("src"))? {
        let entry = entry?;
        fs::copy(entry.path(), folder.join("src").join(entry.file_name()))?;
    }
    Ok(())
}

/// Puts the new line where the old one stands; indentation doesn't count.
fn apply(change: &Change, path: &Path) -> Result<(), String> {
    let in_file = |error| format!("{}: {error}", change.file);
    let text = fs::read_to_string(path).map_err(in_file)?;
    let found = text.lines().filter(|line| line.trim() == change.old).count();
    if found != 1 {
        return Err(format!("{}: the old line stands there {found} times, not once", change.file));
    }
    let changed = |line| if str::trim(line) == change.old { change.new.as_str() } else { line };
    let lines: Vec<&str> = text.lines().map(changed).collect();
    fs::write(path, lines.join("\n") + "\n").map_err(in_file)
}
