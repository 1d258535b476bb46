//! The recording: every event, in files that replay.

use std::fs;
use std::thread;
use std::time::Duration;

use vairolent::{Host, Operation};

use crate::client::*;
use crate::daemon::{refused, until, Daemon};
use crate::folder::{program, Folder};
use crate::process::Process;
use crate::random::Random;
use crate::runs::{self, Run};
use crate::through::Handed;

/// A call of each kind, by kinds of the run file.
#[test]
fn every_call_is_an_event() {
    let folder = Folder::new();
    let daemon = Daemon::start(&folder);
    let (client, sleeper) = (Client::new(&folder), Client::new(&folder));
    let set = client.make(2);
    assert_eq!(client.control(set, 0, SET_VALUE, &[3, 0, 0, 0]).code, 0);
    assert_eq!(client.control(set, 0, SET_ALL, &[4, 0, 5, 0]).code, 0);
    assert_eq!(client.control(set, 0, GET_ALL, &[]).data, [4, 0, 5, 0]);
    assert_eq!(client.operate(set, &[Operation::new(1, -5).undo()]), 0);
    assert_eq!(client.value(set, 1), 0);
    sleeper.begin(set, FOREVER, Operation::new(1, -9));
    client.see_asleep(1);
    sleeper.cancel();
    assert_eq!(sleeper.answer().code, EINTR);
    assert_eq!(client.call(&operate(set, 0, &[Operation::new(0, 0)])).code, EAGAIN);
    assert_eq!(client.control(set, 0, REMOVE, &[]).code, 0);
    assert_eq!(daemon.replay(&folder), 10);
    let run = &runs::all(&folder.record())[0];
    let kinds: Vec<u8> = run.bodies().iter().map(|body| body[0]).collect();
    assert_eq!(kinds, [1, 3, 10, 11, 2, 7, 2, 5, 8, 4]);
}

/// Two sets, an adjustment, and sleepers with and without a wait live on from file to file.
#[test]
fn a_new_file_before_the_old_is_too_long() {
    let folder = Folder::new();
    let daemon = Daemon::start(&folder);
    let client = Client::new(&folder);
    let (first, second) = (client.make(3), client.make(1));
    assert_eq!(client.control(first, 2, SET_VALUE, &[9, 0, 0, 0]).code, 0);
    assert_eq!(client.operate(first, &[Operation::new(1, 4).undo()]), 0);
    let sleepers = [(first, FOREVER), (second, 600_000_000_000)].map(|(set, wait)| {
        let sleeper = Client::new(&folder);
        sleeper.begin(set, wait, Operation::new(0, -20_000).undo());
        sleeper
    });
    client.see_asleep(2);
    client.repeat(12_000, &operate(first, FOREVER, &[Operation::new(0, 1)]), 0);
    for (set, amount, sleeper) in [(first, 8_000, &sleepers[0]), (second, 20_000, &sleepers[1])] {
        assert!(!sleeper.is_answered());
        assert_eq!(client.operate(set, &[Operation::new(0, amount)]), 0);
        assert_eq!(sleeper.answer().code, 0);
    }
    assert!(daemon.replay(&folder) > 12_000);
    let runs = runs::all(&folder.record());
    assert!(runs.len() >= 3, "{}", runs.len());
    for run in &runs {
        assert_eq!(run.lines.matches(" -1@0 ").count(), 2, "both sleep in {}", run.name);
        assert!(run.name.ends_with(".run"));
    }
    assert_eq!(runs[runs.len() - 1].lines.matches('=').count(), 2, "both wake in the last");
}

/// The listing of a recording on one host, as if it were one file, less the counts.
fn listing(host: &mut Host, run: &Run) -> String {
    let file = second::RunFile::read(&run.bytes).expect("a good file");
    let mut lines = format!("events {}\n", file.len());
    for (position, event) in file.events().enumerate() {
        let handed = Handed::from(event);
        let told = host.run(&handed.event());
        lines += &format!("{position} {}\n", handed.event().line(&told));
    }
    lines
}

#[test]
fn more_removals_than_a_beginning_can_hold() {
    let folder = Folder::new();
    let daemon = Daemon::start(&folder);
    let client = Client::new(&folder);
    let kept = client.make(1);
    for _ in 0..1_730 {
        let set = client.make(2);
        assert_eq!(client.control(set, 0, REMOVE, &[]).code, 0);
    }
    client.repeat(400, &long_event(kept), EINVAL);
    assert_eq!(client.operate(kept, &[Operation::new(0, 1)]), 0);
    for number in [2, 3] {
        daemon.hear(&format!("00000{number}.more goes on from the file before it"));
    }
    let (status, said) = daemon.end();
    assert_eq!(status, Some(0), "{said}");
    let runs = runs::all(&folder.record());
    let names: Vec<&str> = runs.iter().map(|run| &run.name[..]).collect();
    assert_eq!(names[..3], ["000001.run", "000002.more", "000003.more"]);
    assert_eq!(runs.iter().map(|run| run.bodies().len()).sum::<usize>(), 1 + 2 * 1_730 + 401);
    let mut host = Host::new();
    for run in &runs {
        assert!(listing(&mut host, run) == run.lines, "{}", run.name);
    }
}

/// Calls until the daemon is killed: how many were answered.
fn call_until_killed(folder: &Folder, daemon: Daemon, after: Duration) -> usize {
    let client = Client::new(folder);
    let set = client.make(1);
    let killer = thread::spawn(move || {
        thread::sleep(after);
        daemon.kill();
    });
    let call = |_: &usize| {
        let sent = client.send(&long_event(set)).is_ok();
        sent && client.answer_or_end().is_some()
    };
    let answered = (0..).take_while(call).count();
    killer.join().expect("killed");
    answered
}

/// How many calls a file has: each is an event of kind 10, which no beginning has. Its lines are
/// the first of those that it replays to; the last may be missing.
fn calls(run: &Run) -> usize {
    assert!(run.replayed().starts_with(&run.lines), "{}", run.name);
    let calls = run.bodies().iter().filter(|body| body[0] == 10).count();
    let lines = run.lines.lines().count();
    assert!(calls == 0 || lines >= run.events(), "{} lines in {}", lines, run.name);
    calls
}

/// A file takes 161 calls, so that some are killed while they change files.
#[test]
fn killed_at_any_moment() {
    let folder = Folder::new();
    let (mut random, mut recorded, mut total) = (Random(11), 0, 0);
    for round in 0..20 {
        let daemon = Daemon::start(&folder);
        let after = Duration::from_micros(random.below(15_000));
        let answered = call_until_killed(&folder, daemon, after);
        let (status, said) = Daemon::start(&folder).end();
        assert_eq!(status, Some(0), "{said}");
        let before = recorded;
        recorded = runs::all(&folder.record()).iter().map(calls).sum();
        let found = recorded - before;
        assert!(found == answered || found == answered + 1, "{round}: {found} of {answered}");
        total += answered;
    }
    assert!(total > 100, "{total}");
}

/// Without serving: the killed daemon's file is whole, and nothing is new.
#[test]
fn what_was_left_is_made_whole() {
    let folder = Folder::new();
    let daemon = Daemon::start(&folder);
    let client = Client::new(&folder);
    let set = client.make(1);
    client.repeat(100, &operate(set, FOREVER, &[Operation::new(0, 1)]), 0);
    let recover = || {
        let mut command = program();
        command.arg("--recover").arg(folder.record());
        refused(command)
    };
    let (status, said) = recover();
    assert_eq!(status, Some(1), "a daemon records there: {said}");
    daemon.kill();
    let (status, said) = recover();
    assert_eq!(status, Some(0), "{said}");
    assert!(said.contains("000001.run was left growing, and is whole now"), "{said}");
    assert_eq!(runs::replay_all(&folder.record()), 101);
    assert_eq!(recover(), (Some(0), String::new()));
    assert_eq!(runs::all(&folder.record()).len(), 1);
}

/// NNNNNN.who has a line for each number, from its first event in each file on, whatever the call is.
#[test]
fn who_had_which_number() {
    let folder = Folder::new();
    let daemon = Daemon::start(&folder);
    let client = Client::new(&folder);
    let set = client.make(1);
    assert_eq!(client.operate(set, &[Operation::new(0, 1)]), 0);
    let give = operate(set, FOREVER, &[Operation::new(0, 1).undo()]);
    let process = Process::with(folder.socket(), vec![give]);
    until("given", || client.value(set, 0) == 2);
    client.repeat(200, &long_event(set), EINVAL);
    assert!(daemon.replay(&folder) > 200);
    let who = |number| {
        let path = folder.record().join(format!("00000{number}.who"));
        fs::read_to_string(path).expect("written")
    };
    let first = format!("process 1 is pid {}, ", std::process::id());
    let second = format!("process 2 is pid {}, ", process.pid());
    assert!(who(1).starts_with(&format!("event 0: {first}")), "{}", who(1));
    assert_eq!(who(1).matches(&second).count(), 1, "{}", who(1));
    for words in [first, second] {
        assert_eq!(who(2).matches(&format!("event 0: {words}")).count(), 1, "{}", who(2));
    }
}

/// Who comes without a connection is new, and finds the number free that it had before.
#[test]
fn who_has_left_has_no_number() {
    let folder = Folder::new();
    let daemon = Daemon::start(&folder);
    for _ in 0..10 {
        assert_eq!(Client::new(&folder).control(0, 0, GET_VALUE, &[]).code, EINVAL);
    }
    assert_eq!(daemon.replay(&folder), 10);
    let who = fs::read_to_string(folder.record().join("000001.who")).expect("written");
    assert!(who.starts_with("event 0: process 1 is "), "{who}");
    assert_eq!(who.lines().count(), 1, "{who}");
}

#[test]
fn two_daemons_in_one_folder() {
    let folder = Folder::new();
    let daemon = Daemon::start(&folder);
    let other = folder.path().join("other");
    let (status, said) = refused(folder.command_with(&other, &folder.record()));
    assert_eq!(status, Some(1), "{said}");
    assert!(said.contains(&folder.record().display().to_string()), "{said}");
    assert!(!other.exists(), "it does not serve");
    assert_eq!(Client::new(&folder).make(1), 0);
    assert_eq!(daemon.replay(&folder), 1);
}

#[test]
fn a_folder_that_cannot_be_written() {
    let folder = Folder::new();
    fs::write(folder.path().join("file"), "").expect("written");
    for record in [folder.path().join("file"), folder.path().join("file/in"), "/proc/self".into()] {
        let (status, said) = refused(folder.command_with(&folder.socket(), &record));
        assert_eq!(status, Some(1), "{said}");
        assert!(said.starts_with(&format!("vairolentd: {}", record.display())), "{said}");
        assert!(!folder.socket().exists(), "it does not serve");
    }
}

/// They stay, and the numbers go on.
#[test]
fn files_that_are_there() {
    let folder = Folder::new();
    fs::create_dir(folder.record()).expect("made");
    let there = ["000041.run", "000007.more", "000041.lines", "notes.txt", "film.part", "a.b.part"];
    for name in there {
        fs::write(folder.record().join(name), name).expect("written");
    }
    let daemon = Daemon::start(&folder);
    Client::new(&folder).make(1);
    let (status, said) = daemon.end();
    assert_eq!(status, Some(0), "{said}");
    for name in there {
        let kept = fs::read_to_string(folder.record().join(name));
        assert_eq!(kept.ok().as_deref(), Some(name), "{said}");
    }
    let run = Run::read(&folder.record().join("000042.run"));
    assert_eq!((run.bodies().len(), run.replayed()), (1, run.lines.clone()));
}
