//! The program itself: its arguments, its input, its status.

use std::io::{Read, Write};
use std::process::{Child, Command, Stdio};

fn start(arguments: &[&str]) -> Child {
    Command::new(env!("CARGO_BIN_EXE_second"))
        .args(arguments)
        .stdin(Stdio::piped())
        .stdout(Stdio::piped())
        .stderr(Stdio::piped())
        .spawn()
        .expect("the program starts")
}

#[test]
fn known_arguments() {
    for arguments in [&[][..], &["--plain"]] {
        let mut child = start(arguments);
        child.stdin.take().expect("a pipe").write_all(&[0, 0]).expect("it reads");
        let output = child.wait_with_output().expect("it ends");
        assert_eq!(output.stdout, b"events 0\n");
        assert!(output.status.success() && output.stderr.is_empty());
    }
}

#[test]
fn other_arguments_get_a_message() {
    for arguments in [&["--quick"][..], &["--plain", "--plain"], &["file"]] {
        let output = start(arguments).wait_with_output().expect("it ends");
        assert_eq!(output.status.code(), Some(2));
        assert!(output.stdout.is_empty() && output.stderr.starts_with(b"usage: second"));
    }
}

/// The pipe stays open: the program answers without waiting for an end.
#[test]
fn a_file_too_long_is_not_read_to_its_end() {
    let mut child = start(&[]);
    let mut pipe = child.stdin.take().expect("a pipe");
    pipe.write_all(&[0; 65_536]).expect("it reads");
    let mut text = String::new();
    child.stdout.take().expect("a pipe").read_to_string(&mut text).expect("it writes");
    assert_eq!(text, "bad 201\n");
    assert!(child.wait().expect("it ends").success());
}
