//! The end of another process.

use vairolent::Operation;

use crate::client::{operate, Client, FOREVER};
use crate::daemon::{until, Daemon};
use crate::folder::Folder;
use crate::process::Process;

/// Two semaphores of 5 and 0, and a process that has taken 2 of the first with SEM_UNDO and sleeps
/// on the second, in this order or the other. How it ends is told by the function.
fn gives_back(sleeps_first: bool, end: impl Fn(&Daemon, &mut Process)) {
    let folder = Folder::new();
    let daemon = Daemon::start(&folder);
    let client = Client::new(&folder);
    let set = client.make(2);
    assert_eq!(client.operate(set, &[Operation::new(0, 5)]), 0);
    let mut packets = vec![
        operate(set, FOREVER, &[Operation::new(0, -2).undo()]),
        operate(set, FOREVER, &[Operation::new(1, -1)]),
    ];
    if sleeps_first {
        packets.reverse();
    }
    let mut process = Process::with(folder.socket(), packets);
    client.see_asleep(1);
    until("taken", || client.value(set, 0) == 3);
    end(&daemon, &mut process);
    client.see_asleep(0);
    until("given back", || client.value(set, 0) == 5);
    assert!(daemon.replay(&folder) >= 7);
}

#[test]
fn a_killed_process_gives_back() {
    gives_back(false, |_, process| process.kill());
    gives_back(true, |_, process| process.kill());
}

/// The daemon finds at once that the process has ended and that its connections are closed.
#[test]
fn a_process_that_ended_meanwhile_gives_back() {
    let meanwhile = |daemon: &Daemon, process: &mut Process| {
        daemon.standing_still(|| process.kill());
    };
    gives_back(false, meanwhile);
    gives_back(true, meanwhile);
}

/// A call that was sent, and whose process has ended before the daemon came to it, is not done.
#[test]
fn what_a_dead_process_left_behind_is_dropped() {
    let folder = Folder::new();
    let daemon = Daemon::start(&folder);
    let client = Client::new(&folder);
    let set = client.make(1);
    assert_eq!(client.operate(set, &[Operation::new(0, 5)]), 0);
    let left = || vec![operate(set, FOREVER, &[Operation::new(0, -2)])];
    let mut process = None;
    daemon.standing_still(|| {
        process.insert(Process::with(folder.socket(), left())).leave_dead();
    });
    // By the second answer the daemon has looked at all that was there before the first.
    assert_eq!([0; 3].map(|number| client.value(set, number)), [5; 3]);
    assert!(daemon.replay(&folder) >= 5);
}
