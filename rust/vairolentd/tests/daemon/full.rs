//! A disk that is full: no file may have a byte more, by a limit of the daemon's process.

use vairolent::Operation;

use crate::client::{long_event, operate, Client, EINVAL, ENOSPC, FOREVER};
use crate::daemon::{refused, Daemon};
use crate::folder::Folder;
use crate::runs;

extern "C" {
    fn prlimit(process: i32, resource: i32, new: *const [u64; 2], old: *mut [u64; 2]) -> i32;
}

/// From now on there is no room on the disk.
fn fill(daemon: &Daemon) {
    limit(daemon, 0);
}

/// From now on there is some.
fn make_room(daemon: &Daemon) {
    limit(daemon, u64::MAX);
}

fn limit(daemon: &Daemon, bytes: u64) {
    const LENGTH_OF_FILES: i32 = 1;
    // SAFETY: the limit lives, and no old one is asked for.
    let set =
        unsafe { prlimit(daemon.pid(), LENGTH_OF_FILES, &[bytes, u64::MAX], std::ptr::null_mut()) };
    assert_eq!(set, 0);
}

#[test]
fn calls_go_on_and_nothing_is_lost() {
    let folder = Folder::new();
    let daemon = Daemon::start(&folder);
    let client = Client::new(&folder);
    let set = client.make(1);
    fill(&daemon);
    client.repeat(1_000, &operate(set, FOREVER, &[Operation::new(0, 1)]), 0);
    daemon.hear("the recording cannot be written (File too large");
    // Some more files that have to wait.
    client.repeat(400, &long_event(set), EINVAL);
    assert_eq!(client.value(set, 0), 1_000);
    assert!(client.status().contains(", kept in memory: the disk fails"), "{}", client.status());
    assert!(runs::all(&folder.record()).is_empty(), "none is whole");
    make_room(&daemon);
    assert_eq!(client.operate(set, &[Operation::new(0, -1_000)]), 0);
    daemon.hear("the recording is written again, and whole");
    assert!(!client.status().contains("kept in memory"));
    assert_eq!(daemon.said().matches("it is kept in memory").count(), 1, "said once");
    let events = daemon.replay(&folder);
    let files = runs::all(&folder.record()).len();
    assert!(files >= 3, "{files}");
    // A beginning has a create and an operate or a setting.
    assert_eq!(events, 1_403 + 2 * (files - 1));
}

/// Somebody makes as much trouble as is said in a second; this is said all the same.
#[test]
fn it_is_said_in_a_flood_too() {
    let folder = Folder::new();
    let daemon = Daemon::start(&folder);
    let client = Client::new(&folder);
    let set = client.make(1);
    fill(&daemon);
    for _ in 0..40 {
        let bad = Client::new(&folder);
        bad.send(&[0]).expect("sent");
        assert_eq!(bad.answer_or_end(), None);
    }
    client.repeat(50, &long_event(set), EINVAL);
    assert!(client.status().contains("kept in memory"), "{}", client.status());
    make_room(&daemon);
    assert_eq!(client.operate(set, &[Operation::new(0, 1)]), 0);
    let (_, said) = daemon.end();
    assert!(said.contains("the recording cannot be written"), "{said}");
    assert!(said.contains("the recording is written again"), "{said}");
    assert_eq!(runs::replay_all(&folder.record()), 52);
}

/// 256 files wait in memory: then nothing more happens, until there is room.
#[test]
fn no_room_in_memory_either() {
    let folder = Folder::new();
    let daemon = Daemon::start(&folder);
    let client = Client::new(&folder);
    let set = client.make(1);
    fill(&daemon);
    let in_a_file = (65_535 - 2) / 407;
    client.repeat(256 * (in_a_file - 1), &long_event(set), EINVAL);
    let refused = (0..2 * in_a_file).any(|_| client.call(&long_event(set)).code == ENOSPC);
    assert!(refused, "there is a bound");
    assert_eq!(client.operate(set, &[Operation::new(0, 1)]), ENOSPC);
    assert!(client.status().contains("kept in memory"), "the state is shown");
    make_room(&daemon);
    assert_eq!(client.operate(set, &[Operation::new(0, 2)]), 0);
    daemon.hear("the recording is written again, and whole");
    assert_eq!(client.value(set, 0), 2, "the refused one has not happened");
    assert!(daemon.replay(&folder) > 256 * (in_a_file - 1));
    assert_eq!(runs::all(&folder.record()).len(), 257);
}

/// It says that the recording is not whole; what is there is made whole once there is room.
#[test]
fn an_end_while_the_disk_is_full() {
    let folder = Folder::new();
    let daemon = Daemon::start(&folder);
    let client = Client::new(&folder);
    let set = client.make(1);
    fill(&daemon);
    client.repeat(1_000, &operate(set, FOREVER, &[Operation::new(0, 1)]), 0);
    let (status, said) = daemon.end();
    assert_eq!(status, Some(1), "{said}");
    assert!(said.ends_with("vairolentd: File too large (os error 27)\n"), "{said}");
    Daemon::start(&folder).end();
    let run = &runs::all(&folder.record())[0];
    assert!(run.events() >= 1, "the first was there before");
    assert!(run.replayed().starts_with(&run.lines), "{}", run.lines);
}

#[test]
fn a_disk_that_is_full_from_the_beginning() {
    let folder = Folder::new();
    let (status, said) = refused(folder.limited("-S -f 0"));
    assert_eq!(status, Some(1), "refused: {said}");
    assert!(said.contains("File too large"), "{said}");
}

/// What a killed daemon left cannot be made whole: it is left as it is, for a later start.
#[test]
fn a_disk_that_is_full_for_what_was_left() {
    let folder = Folder::new();
    let daemon = Daemon::start(&folder);
    let client = Client::new(&folder);
    let set = client.make(1);
    client.repeat(1_000, &operate(set, FOREVER, &[Operation::new(0, 1)]), 0);
    daemon.kill();
    let (status, said) = refused(folder.limited("-S -f 8"));
    assert_eq!(status, Some(1), "refused: {said}");
    assert!(said.contains("File too large"), "{said}");
    assert_eq!(Daemon::start(&folder).replay(&folder), 1_001);
}
