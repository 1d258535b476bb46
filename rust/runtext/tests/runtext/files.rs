//! There and back, on files of every kind that the comparer makes, and on those that are kept.

use std::fs;

use crate::{bad, built, good, repository, run, runtext};

/// Kinds of good files, all of which `compare --help` lists.
const KINDS: [&str; 10] = [
    "medley", "mixed", "extremes", "refusals", "queries", "random", "long", "whole", "timed",
    "modes",
];
/// Files of a seed, good and bad.
const FILES: usize = 100;

/// A file as the comparer makes it.
pub fn generated(arguments: &[&str]) -> Vec<u8> {
    let name = format!("runtext-{}-{}", std::process::id(), arguments.concat());
    let path = std::env::temp_dir().join(name);
    let out = path.to_str().expect("a plain path");
    let arguments = [&["generate"], arguments, &["--out", out]].concat();
    let output = run(&built("compare"), &arguments, b"");
    assert!(output.status.success(), "{output:?}");
    let file = fs::read(&path).expect("the comparer wrote it");
    fs::remove_file(&path).expect("it can go");
    file
}

fn comes_back(file: &[u8]) {
    let text = good(&["disassemble"], file);
    assert!(good(&["assemble"], &text) == file, "another file comes back");
}

#[test]
fn full_files_of_each_kind() {
    for kind in KINDS {
        comes_back(&generated(&["--kind", kind, "--seed", "5"]));
    }
}

/// A file is refused with the code that its lines have, or comes back; is it refused?
fn is_refused(name: &str, file: &[u8], lines: &[u8]) -> bool {
    let first = String::from_utf8_lossy(lines).lines().next().unwrap_or_default().to_string();
    let refused = first.starts_with("bad ");
    if refused {
        let (status, words) = bad(&["disassemble"], file);
        assert_eq!(status, 1);
        assert!(words.starts_with(&format!("{first}: ")), "file {name}: {words}");
    } else {
        comes_back(file);
    }
    refused
}

#[test]
fn files_good_and_bad() {
    let mut refused = 0;
    for index in 0..FILES {
        let name = index.to_string();
        let file = generated(&["--file", &name, "--seed", "11"]);
        let lines = run(&built("second"), &[], &file).stdout;
        refused += usize::from(is_refused(&name, &file, &lines));
    }
    assert!((5..=FILES - 20).contains(&refused), "{refused} of {FILES} are refused");
}

/// The files of the repository, with the lines that are stored beside them.
#[test]
fn kept_files() {
    let (mut files, mut refused) = (0, 0);
    for entry in fs::read_dir(repository().join("tests/files")).expect("the kept files") {
        let path = entry.expect("a file").path();
        if path.extension().map_or(false, |ending| ending == "run") {
            let file = fs::read(&path).expect("a kept file");
            let lines = fs::read(path.with_extension("expected")).expect("its lines");
            files += 1;
            refused += usize::from(is_refused(&path.to_string_lossy(), &file, &lines));
        }
    }
    assert!(refused > 5 && files > refused + 5, "{refused} of {files} are refused");
}

#[test]
fn a_text_of_a_run_file_too_long() {
    let full = generated(&["--kind", "mixed", "--seed", "6"]);
    let mut text = good(&["disassemble"], &full);
    text.extend_from_slice(&text.clone());
    let output = runtext(&["assemble"], &text);
    let words = String::from_utf8_lossy(&output.stderr);
    assert_eq!(output.status.code(), Some(2));
    assert!(words.contains(":1: expected a run of at most 65535 bytes, found 65"), "{words}");
}
