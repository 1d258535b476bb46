//! Clients that keep to no rule: the daemon lives, serves the others, and its recording replays.

use std::collections::VecDeque;
use std::io;
use std::thread;
use std::time::Duration;

use vairolent::Operation;

use crate::client::{long_event, operate, packet, Client, EINTR, EINVAL, FOREVER, GET_INCREASE};
use crate::daemon::{until, Daemon};
use crate::folder::Folder;
use crate::process::Process;
use crate::random::Random;
use crate::runs;

/// One who keeps to the rules: each time it is served, a semaphore goes from 0 to 1 and back.
struct Witness {
    client: Client,
    set: i32,
}

impl Witness {
    fn new(folder: &Folder) -> Witness {
        let client = Client::new(folder);
        let set = client.make(1);
        Witness { client, set }
    }

    fn is_served(&self) {
        for (amount, value) in [(1, 1), (-1, 0)] {
            let operations = [Operation::new(0, amount).nowait()];
            assert_eq!(self.client.operate(self.set, &operations), 0);
            assert_eq!(self.client.value(self.set, 0), value);
        }
    }
}

/// A connection of its own for one packet: is it answered?
fn is_answered(folder: &Folder, packet: &[u8]) -> bool {
    let client = Client::new(folder);
    client.send(packet).is_ok() && client.answer_or_end().is_some()
}

#[test]
fn a_packet_of_every_length() {
    let folder = Folder::new();
    let daemon = Daemon::start(&folder);
    let witness = Witness::new(&folder);
    let longest = operate(-1, FOREVER, &[Operation::new(0, 0); 20_000]);
    let lengths = (0..=300).chain([4_096, 65_536, longest.len()]);
    for length in lengths {
        let right = (24..=222).contains(&length) && length % 6 == 0;
        assert_eq!(is_answered(&folder, &longest[..length]), right, "{length}");
        if length % 25 == 0 {
            witness.is_served();
        }
    }
    daemon.hear("a packet of a length that no request has; its connection is closed");
    // 34 operations with a right length are answered, and recorded; so is the witness.
    assert_eq!(daemon.replay(&folder), 34 + 1 + 4 * 13);
}

#[test]
fn versions_and_kinds_that_there_are_not() {
    let folder = Folder::new();
    let daemon = Daemon::start(&folder);
    let witness = Witness::new(&folder);
    for version in [0u16, 2, 256, u16::MAX] {
        let mut other = packet(6, [0; 3], 0, &[]);
        other[..2].copy_from_slice(&version.to_le_bytes());
        assert!(!is_answered(&folder, &other), "version {version}");
    }
    for kind in [0, 7, 256, u16::MAX] {
        assert!(!is_answered(&folder, &packet(kind, [0; 3], 0, &[])), "kind {kind}");
    }
    assert!(!is_answered(&folder, &[0; 70_000]));
    witness.is_served();
    daemon.hear("a packet that is too long");
    let said = daemon.said();
    assert_eq!(said.matches("a request of another version").count(), 4, "{said}");
    assert_eq!(said.matches("a request that there is not").count(), 4, "{said}");
    assert_eq!(daemon.replay(&folder), 5);
}

/// A packet that is right in some ways. It never names set 0, which is the witness's.
fn garbage(random: &mut Random) -> Vec<u8> {
    if random.below(10) == 0 {
        let length = random.below(300) as usize;
        return random.bytes(length);
    }
    let kind = random.pick(&[1, 1, 2, 2, 2, 2, 3, 3, 3, 4, 5, 6]);
    let first = random.pick(&[-1, 1, 2, 3, 4, 5, 6, 7, 9, 10, 11, i32::MIN, i32::MAX]);
    let second = random.pick(&[-1, 0, 1, 2, 3, 8, 9, 65_535, 65_536, i32::MIN]);
    let third = random.pick(&[0, 2, 3, 11, 12, 13, 14, 15, 16, 17, 18, 19, 20, 0o1600, 0o3777]);
    let wait = random.pick(&[FOREVER, 0, 1, 1_000_000, i64::MIN, i64::MAX]);
    let mut data = Vec::new();
    for _ in 0..random.pick(&[0, 1, 1, 1, 2, 3, 33]) {
        let (number, amount) = (random.pick(&[0, 0, 1, 2, 9]), random.pick(&[-1, 0, 1, 20_000]));
        let operation = Operation { number, amount, flags: random.pick(&[0, 2_048, 4_096, 77]) };
        data.extend(operation.to_bytes());
    }
    if random.below(5) == 0 {
        data.truncate(4);
    }
    packet(kind, [first, second, third], wait, &data)
}

/// Sends garbage over one connection after the other, and reads only some of the answers.
fn send_garbage(folder: &Folder, seed: u64, packets: usize) {
    let mut random = Random(seed);
    let mut client = Client::new(folder);
    for _ in 0..packets {
        let packet = garbage(&mut random);
        loop {
            match client.send(&packet) {
                Err(error) if error.kind() == io::ErrorKind::WouldBlock => thread::yield_now(),
                Err(_) => client = Client::new(folder),
                Ok(()) => break,
            }
        }
        if random.below(8) > 0 && client.is_answered_within(Duration::from_millis(1)) {
            let _ = client.answer_or_end();
        }
    }
}

#[test]
fn garbage_from_several() {
    let folder = Folder::new();
    let daemon = Daemon::start(&folder);
    let witness = Witness::new(&folder);
    assert_eq!(witness.set, 0);
    thread::scope(|scope| {
        let folder = &folder;
        let send = |seed| scope.spawn(move || send_garbage(folder, seed, 1_500));
        let senders: Vec<_> = (1..=4).map(send).collect();
        let mut served = 0;
        while senders.iter().any(|sender| !sender.is_finished()) || served < 20 {
            witness.is_served();
            served += 1;
        }
    });
    daemon.hear("its connection is closed");
    let events = daemon.replay(&folder);
    assert!(events > 2_000, "{events}");
}

/// The connection is closed, and the sleeper interrupted: nobody waits for it any more.
#[test]
fn a_call_while_another_sleeps() {
    let folder = Folder::new();
    let daemon = Daemon::start(&folder);
    let (client, other) = (Client::new(&folder), Client::new(&folder));
    let set = other.make(1);
    client.begin(set, FOREVER, Operation::new(0, -1));
    other.see_asleep(1);
    client.send(&operate(set, FOREVER, &[Operation::new(0, 1)])).expect("sent");
    assert_eq!(client.answer_or_end(), None);
    other.see_asleep(0);
    assert_eq!(other.control(set, 0, GET_INCREASE, &[]).value, 0);
    assert_eq!(other.value(set, 0), 0);
    daemon.hear("a call while another sleeps; its connection is closed");
    assert_eq!(daemon.replay(&folder), 5);
    let run = &runs::all(&folder.record())[0];
    assert_eq!(run.bodies()[2], [5, 1], "a signal for number 1");
    assert!(run.lines.contains(&format!(" 0 0 0 1={EINTR}\n")), "{}", run.lines);
}

/// Its answers stay in the socket until there is no more room.
#[test]
fn one_that_never_reads() {
    let folder = Folder::new();
    let daemon = Daemon::start(&folder);
    let witness = Witness::new(&folder);
    let client = Client::new(&folder);
    let give = operate(witness.set, FOREVER, &[Operation::new(0, 1), Operation::new(0, -1)]);
    let mut sent = 0;
    until("closed", || loop {
        match client.send(&give) {
            Err(error) if error.kind() == io::ErrorKind::WouldBlock => return false,
            Err(_) => return true,
            Ok(()) => sent += 1,
        }
    });
    daemon.hear("answers that it does not read; its connection is closed");
    witness.is_served();
    let events = daemon.replay(&folder);
    assert!(events > 100 && events <= sent + 5, "{events} of {sent}");
}

#[test]
fn many_that_do_nothing() {
    let folder = Folder::new();
    let daemon = Daemon::start(&folder);
    let witness = Witness::new(&folder);
    let idle: Vec<Client> = (0..100).map(|_| Client::new(&folder)).collect();
    witness.is_served();
    until("accepted", || daemon.descriptors() > 100);
    assert!(!idle.iter().any(Client::is_answered), "none is closed");
    assert_eq!(daemon.replay(&folder), 5);
}

#[test]
fn thousands_one_after_the_other() {
    let folder = Folder::new();
    let daemon = Daemon::start(&folder);
    let witness = Witness::new(&folder);
    witness.is_served();
    let before = daemon.descriptors();
    for number in 0..3_000 {
        let client = Client::new(&folder);
        match number % 3 {
            0 => drop(client.status()),
            1 => client.begin(witness.set, FOREVER, Operation::new(0, -1)),
            _ => {}
        }
    }
    until("all are closed", || daemon.descriptors() <= before);
    witness.is_served();
    assert_eq!(daemon.descriptors(), before);
    let events = daemon.replay(&folder);
    assert!(events >= 1_000, "{events}");
}

#[test]
fn more_at_once_than_one_process_may_have() {
    let folder = Folder::new();
    let daemon = Daemon::start(&folder);
    let witness = Witness::new(&folder);
    let others: Vec<Client> = (1..256).map(|_| Client::new(&folder)).collect();
    assert!(!is_answered(&folder, &packet(6, [0; 3], 0, &[])), "the 257th");
    daemon.hear("has 256 connections already");
    assert!(others.iter().all(|other| other.status().contains("Semaphore Arrays")));
    witness.is_served();
    drop(others);
    until("room again", || is_answered(&folder, &packet(6, [0; 3], 0, &[])));
    assert_eq!(daemon.replay(&folder), 5);
}

/// Connections until one is refused.
fn fill_up(folder: &Folder) -> VecDeque<Client> {
    let mut clients = VecDeque::new();
    loop {
        let client = Client::new(folder);
        let _ = client.send(&packet(6, [0; 3], 0, &[]));
        if client.answer_or_end().is_none() {
            return clients;
        }
        clients.push_back(client);
        assert!(clients.len() < 32, "there are 32 descriptors");
    }
}

#[test]
fn no_descriptors_left() {
    let folder = Folder::new();
    let daemon = Daemon::of(folder.limited("-n 32"));
    let witness = Witness::new(&folder);
    witness.is_served();
    let mut clients = fill_up(&folder);
    daemon.hear("a connection is refused: Too many open files");
    let most = daemon.descriptors() + 1;
    clients.pop_front();
    until("two are left", || daemon.descriptors() == most - 2);
    // One for its connection, and one for itself.
    let _process = Process::with(folder.socket(), vec![packet(6, [0; 3], 0, &[])]);
    until("none is left", || daemon.descriptors() == most);
    (0..5).for_each(|_| assert!(!is_answered(&folder, &packet(6, [0; 3], 0, &[]))));
    witness.is_served();
    assert!(clients.iter().all(|client| client.status().contains("Semaphore Arrays")));
    daemon.rest();
    let before = daemon.work();
    thread::sleep(Duration::from_millis(100));
    assert_eq!(daemon.work(), before, "it waits");
    // The next file of the recording cannot be opened, until there are descriptors.
    witness.client.repeat(200, &long_event(witness.set), EINVAL);
    daemon.hear("the recording cannot be written (Too many open files");
    drop(clients);
    until("descriptors", || daemon.descriptors() < most - 10);
    witness.is_served();
    daemon.hear("the recording is written again, and whole");
    assert!(daemon.replay(&folder) >= 213);
    assert_eq!(runs::all(&folder.record()).len(), 2);
}
