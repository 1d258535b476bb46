//! The commands, on texts and on files that the comparer makes.

mod commands;
mod files;
mod stories;

use std::io::Write;
use std::path::{Path, PathBuf};
use std::process::{Command, Output, Stdio};
use std::thread;

const EXAMPLE: &str = "\
create 1 by=1 mode=rw-rw-rw-
operate 1 set=0 0:-1
operate 2 set=0 0:+1
";

fn repository() -> &'static Path {
    let package = Path::new(env!("CARGO_MANIFEST_DIR"));
    package.ancestors().nth(2).expect("the package stands in the repository's rust/")
}

/// A program of the repository in ordinary Rust.
fn built(name: &str) -> PathBuf {
    let path = repository().join("target/rust/release").join(name);
    assert!(path.is_file(), "tools/build-rust builds {name} first");
    path
}

/// The proved program; where it isn't built yet, the second one stands in for it.
fn replay() -> PathBuf {
    let proved = repository().join("target/bin/replay");
    if proved.is_file() {
        proved
    } else {
        built("second")
    }
}

fn run(program: &Path, arguments: &[&str], input: &[u8]) -> Output {
    let mut child = Command::new(program)
        .args(arguments)
        .stdin(Stdio::piped())
        .stdout(Stdio::piped())
        .stderr(Stdio::piped())
        .spawn()
        .expect("the program starts");
    let pipe = child.stdin.take();
    thread::scope(|scope| {
        // A program that doesn't read to the end has its reasons.
        scope.spawn(|| pipe.map(|mut pipe| pipe.write_all(input)));
        child.wait_with_output().expect("the program ends")
    })
}

fn runtext(arguments: &[&str], input: &[u8]) -> Output {
    run(Path::new(env!("CARGO_BIN_EXE_runtext")), arguments, input)
}

/// What a command writes that goes well.
fn good(arguments: &[&str], input: &[u8]) -> Vec<u8> {
    let output = runtext(arguments, input);
    assert!(output.status.success() && output.stderr.is_empty(), "{output:?}");
    output.stdout
}

/// Status and message of a command that fails.
fn bad(arguments: &[&str], input: &[u8]) -> (i32, String) {
    let output = runtext(arguments, input);
    assert!(output.stdout.is_empty(), "{output:?}");
    let words = String::from_utf8(output.stderr).expect("a message");
    (output.status.code().expect("a status"), words)
}
