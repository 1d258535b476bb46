//! Where the daemon listens, how it begins and how it ends.

use std::fs;
use std::os::unix::fs::{MetadataExt, PermissionsExt};
use std::os::unix::net::UnixListener;
use std::path::Path;

use vairolent::Operation;

use crate::client::{Client, FOREVER};
use crate::daemon::{refused, Daemon};
use crate::folder::{program, Folder};
use crate::runs;

fn mode(path: &Path) -> u32 {
    fs::symlink_metadata(path).expect("a socket").permissions().mode() & 0o777
}

#[test]
fn who_may_connect() {
    let folder = Folder::new();
    let daemon = Daemon::start(&folder);
    assert_eq!(mode(&folder.socket()), 0o600);
    daemon.end();
    for (word, wanted) in [("660", 0o660), ("0", 0), ("777", 0o777)] {
        let mut command = folder.command();
        command.arg("--mode").arg(word);
        let daemon = Daemon::of(command);
        assert_eq!(mode(&folder.socket()), wanted);
        daemon.end();
    }
}

/// Its calls that sleep are gone, its socket too, and its run is whole.
#[test]
fn each_signal_ends_it() {
    for signal in [15, 2, 1] {
        let folder = Folder::new();
        let daemon = Daemon::start(&folder);
        let (client, sleeper) = (Client::new(&folder), Client::new(&folder));
        let set = client.make(1);
        sleeper.begin(set, FOREVER, Operation::new(0, -1));
        client.see_asleep(1);
        daemon.signal(signal);
        let (status, said) = daemon.end();
        assert_eq!(status, Some(0), "{said}");
        assert_eq!(said.lines().count(), 1, "{said}");
        assert_eq!(sleeper.answer_or_end(), None);
        assert!(!folder.socket().exists());
        assert_eq!(runs::replay_all(&folder.record()), 2);
    }
}

#[test]
fn what_an_ended_daemon_left_is_replaced() {
    let folder = Folder::new();
    let daemon = Daemon::start(&folder);
    Client::new(&folder).make(1);
    daemon.kill();
    assert!(folder.socket().exists(), "it could not remove it");
    let daemon = Daemon::start(&folder);
    assert_eq!(Client::new(&folder).make(1), 0);
    assert_eq!(daemon.replay(&folder), 2);
}

#[test]
fn a_daemon_that_serves_there_stays() {
    let folder = Folder::new();
    let daemon = Daemon::start(&folder);
    let client = Client::new(&folder);
    let (status, said) = refused(folder.command_with(&folder.socket(), &folder.path().join("b")));
    assert_eq!(status, Some(1), "{said}");
    assert!(said.contains("somebody serves there"), "{said}");
    assert_eq!(client.make(1), 0);
    assert_eq!(Client::new(&folder).make(1), 1);
    assert_eq!(daemon.replay(&folder), 2);
}

#[test]
fn what_is_no_socket_of_a_daemon_stays() {
    let folder = Folder::new();
    fs::write(folder.socket(), "mine").expect("written");
    let (status, said) = refused(folder.command());
    assert_eq!(status, Some(1), "{said}");
    assert!(said.contains(&folder.socket().display().to_string()), "{said}");
    assert_eq!(fs::read(folder.socket()).expect("still there"), b"mine");
}

/// One who listens there for streams is not asked in packets.
#[test]
fn what_another_program_listens_at_stays() {
    let folder = Folder::new();
    let _listener = UnixListener::bind(folder.socket()).expect("bound");
    let number = || fs::symlink_metadata(folder.socket()).map(|file| file.ino()).ok();
    let before = number();
    let (status, said) = refused(folder.command());
    assert_eq!(number(), before, "it is the same: {said}");
    assert_eq!(status, Some(1), "{said}");
}

#[test]
fn wrong_arguments() {
    for words in [
        "",
        "--record r",
        "--socket s",
        "--socket s --record",
        "--socket s --record r --mode 999",
        "--socket s --record r --status",
        "--socket s --record r more",
    ] {
        let mut command = program();
        command.args(words.split_whitespace());
        let (status, said) = refused(command);
        assert_eq!(status, Some(2), "{words}: {said}");
        assert!(said.contains("usage: vairolentd --socket PATH --record FOLDER"), "{said}");
    }
}
