//! `vairolentd --status`.

use std::process;

use vairolent::Operation;

use crate::client::{packet, Client, FOREVER, GET_PID, SET_VALUE};
use crate::daemon::Daemon;
use crate::folder::{program, Folder};

/// Its status, and what it wrote: on standard output, and on standard error.
fn ask(folder: &Folder) -> (Option<i32>, String, String) {
    let mut command = program();
    let output = command.arg("--status").arg("--socket").arg(folder.socket()).output();
    let output = output.expect("started");
    let [out, err] = [output.stdout, output.stderr].map(|text| String::from_utf8(text).unwrap());
    (output.status.code(), out, err)
}

/// The lines of one list, each as its words, without the title.
fn list(text: &str, title: &str) -> Vec<Vec<String>> {
    let list = text.split(&format!("------ {title} --------\n")).nth(1).expect("a list");
    let rows = list.lines().skip(1).take_while(|line| !line.is_empty());
    rows.map(|line| line.split_whitespace().map(str::to_string).collect()).collect()
}

fn check_sets(text: &str) {
    let wanted = [["0x00000000", "0", "600", "2"], ["0x00005eed", "1", "640", "1"]];
    let mut sets = list(text, "Semaphore Arrays");
    // The owner is the name of whoever runs this.
    sets.iter_mut().for_each(|set| drop(set.remove(2)));
    assert_eq!(sets, wanted, "{text}");
}

/// The first two are set and untouched; the last was given to by this process.
fn check_semaphores(text: &str, pid: &str) {
    let wanted = [
        ["0", "0", "3", "0", "1", "0"],
        ["0", "1", "0", "1", "0", "0"],
        ["1", "0", "7", "0", "0", pid],
    ];
    assert_eq!(list(text, "Semaphores"), wanted, "{text}");
}

fn check_sleepers(text: &str, pid: &str) {
    let sleepers = list(text, "Sleepers");
    assert_eq!(sleepers.len(), 2, "{text}");
    assert_eq!(sleepers[0], [pid, "0", "1", "increase", "-"]);
    assert_eq!(sleepers[1][..5], [pid, "0", "0", "zero", "in"]);
    let left: u32 = sleepers[1][5].parse().expect("milliseconds");
    assert!((40_000..=60_000).contains(&left), "{left}");
}

#[test]
fn it_lists_what_was_done() {
    let folder = Folder::new();
    let daemon = Daemon::start(&folder);
    let client = Client::new(&folder);
    let first = client.make(2);
    let key = 0x5eed;
    let made = client.call(&packet(1, [key, 1, 0o1640], 0, &[]));
    assert_eq!((made.code, made.value), (0, 1));
    assert_eq!(client.control(first, 0, SET_VALUE, &3i32.to_le_bytes()).code, 0);
    assert_eq!(client.operate(1, &[Operation::new(0, 7)]), 0);
    let [takes, zero] = [(); 2].map(|()| Client::new(&folder));
    takes.begin(first, FOREVER, Operation::new(1, -1));
    client.see_asleep(1);
    zero.begin(first, 60_000_000_000, Operation::new(0, 0));
    client.see_asleep(2);

    let (status, text, said) = ask(&folder);
    assert_eq!((status, said), (Some(0), String::new()));
    let pid = process::id().to_string();
    check_sets(&text);
    check_semaphores(&text, &pid);
    check_sleepers(&text, &pid);
    assert!(text.contains("000001.run\n"), "{text}");
    assert_eq!(client.control(1, 0, GET_PID, &[]).value.to_string(), pid);
    assert!(daemon.replay(&folder) >= 7);
}

#[test]
fn a_daemon_without_sets() {
    let folder = Folder::new();
    let daemon = Daemon::start(&folder);
    let (status, text, _) = ask(&folder);
    assert_eq!(status, Some(0));
    for title in ["Semaphore Arrays", "Semaphores", "Sleepers"] {
        assert!(list(&text, title).is_empty(), "{text}");
    }
    let run = folder.record().join("000001.run");
    assert!(text.ends_with(&format!("recorded: 0 events in {}\n", run.display())), "{text}");
    assert_eq!(daemon.replay(&folder), 0, "to ask is no event");
}

#[test]
fn no_daemon() {
    let folder = Folder::new();
    let nobody = format!("no daemon at {}", folder.socket().display());
    let (status, text, said) = ask(&folder);
    assert_eq!((status, &text[..]), (Some(1), ""));
    assert!(said.contains(&nobody), "{said}");
    Daemon::start(&folder).kill();
    let (status, _, said) = ask(&folder);
    assert_eq!(status, Some(1));
    assert!(said.contains(&nobody), "{said}");
}
