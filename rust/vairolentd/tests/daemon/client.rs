//! A connection to a daemon, and the calls in it.

use std::io;
use std::path::Path;
use std::time::Duration;

use vairolent::Operation;
use vairolentd::system::{Poll, Readable, Socket};

use crate::daemon::{until, LONG};
use crate::folder::Folder;

pub const EINTR: i32 = 4;
pub const EAGAIN: i32 = 11;
pub const EINVAL: i32 = 22;
pub const ENOSPC: i32 = 28;

/// The commands of a control.
pub const REMOVE: i32 = 0;
pub const GET_PID: i32 = 11;
pub const GET_VALUE: i32 = 12;
pub const GET_ALL: i32 = 13;
pub const GET_INCREASE: i32 = 14;
pub const SET_VALUE: i32 = 16;
pub const SET_ALL: i32 = 17;

/// No limit.
pub const FOREVER: i64 = -1;

extern "C" {
    fn setsockopt(socket: i32, level: i32, name: i32, value: *const [i64; 2], length: u32) -> i32;
}

/// A request as the preload library sends it.
pub fn packet(kind: u16, words: [i32; 3], wait: i64, data: &[u8]) -> Vec<u8> {
    let mut packet = [1u16.to_le_bytes(), kind.to_le_bytes()].concat();
    packet.extend(words.iter().flat_map(|word| word.to_le_bytes()));
    packet.extend(wait.to_le_bytes());
    packet.extend(data);
    packet
}

/// The packet of a semtimedop.
pub fn operate(set: i32, wait: i64, operations: &[Operation]) -> Vec<u8> {
    let data: Vec<u8> = operations.iter().flat_map(|operation| operation.to_bytes()).collect();
    packet(2, [set, 0, 0], wait, &data)
}

/// A setting of far too many values: refused, and as long an event as there is, 407 bytes.
pub fn long_event(set: i32) -> Vec<u8> {
    packet(3, [set, 0, SET_ALL], 0, &[0; 198])
}

#[derive(Debug, PartialEq, Eq)]
pub struct Answer {
    pub code: i32,
    pub value: i32,
    pub data: Vec<u8>,
}

pub struct Client(Socket);

impl Client {
    pub fn new(folder: &Folder) -> Client {
        Client::at(&folder.socket()).expect("connected")
    }

    pub fn at(path: &Path) -> io::Result<Client> {
        const SOCKET: i32 = 1;
        const TIME_TO_RECEIVE: i32 = 20;
        let socket = Socket::connect(path)?;
        let time = [LONG.as_secs() as i64, 0];
        // SAFETY: the time is as long as it says.
        let set = unsafe { setsockopt(socket.descriptor(), SOCKET, TIME_TO_RECEIVE, &time, 16) };
        assert_eq!(set, 0);
        Ok(Client(socket))
    }

    pub fn send(&self, packet: &[u8]) -> io::Result<()> {
        self.0.send(packet)
    }

    /// The next answer, or nothing where the daemon has closed the connection.
    pub fn answer_or_end(&self) -> Option<Answer> {
        let mut packet = [0; 8192];
        let length = match self.0.receive(&mut packet) {
            Err(error) if error.kind() == io::ErrorKind::Interrupted => {
                return self.answer_or_end()
            }
            Err(error) if error.kind() == io::ErrorKind::WouldBlock => panic!("no answer"),
            Ok(length) if length > 0 => length,
            _ => return None,
        };
        let word = |at: usize| i32::from_le_bytes(packet[at..at + 4].try_into().expect("four"));
        Some(Answer { code: word(0), value: word(4), data: packet[8..length].to_vec() })
    }

    pub fn answer(&self) -> Answer {
        self.answer_or_end().expect("an open connection")
    }

    pub fn is_answered(&self) -> bool {
        self.is_answered_within(Duration::ZERO)
    }

    /// Is there an answer, or the end of the connection?
    pub fn is_answered_within(&self, time: Duration) -> bool {
        let mut poll = Poll::new().expect("a poll");
        poll.watch(&self.0, 0).expect("watched");
        !poll.wait(Some(time)).expect("waited").is_empty()
    }

    pub fn call(&self, packet: &[u8]) -> Answer {
        self.send(packet).expect("sent");
        self.answer()
    }

    /// So many calls of the same packet, some of them at once. All have this code.
    pub fn repeat(&self, times: usize, packet: &[u8], code: i32) {
        const AT_ONCE: usize = 64;
        let mut left = times;
        while left > 0 {
            let some = left.min(AT_ONCE);
            (0..some).for_each(|_| self.send(packet).expect("sent"));
            (0..some).for_each(|_| assert_eq!(self.answer().code, code));
            left -= some;
        }
    }

    /// Makes a set of so many semaphores.
    pub fn make(&self, count: i32) -> i32 {
        let answer = self.call(&packet(1, [0, count, 0o600], 0, &[]));
        assert_eq!(answer.code, 0);
        answer.value
    }

    /// The code of a semop.
    pub fn operate(&self, set: i32, operations: &[Operation]) -> i32 {
        self.call(&operate(set, FOREVER, operations)).code
    }

    /// Begins a semop, which is going to sleep.
    pub fn begin(&self, set: i32, wait: i64, operation: Operation) {
        self.send(&operate(set, wait, &[operation])).expect("sent");
    }

    pub fn control(&self, set: i32, number: i32, command: i32, data: &[u8]) -> Answer {
        self.call(&packet(3, [set, number, command], 0, data))
    }

    pub fn value(&self, set: i32, number: i32) -> i32 {
        let answer = self.control(set, number, GET_VALUE, &[]);
        assert_eq!(answer.code, 0);
        answer.value
    }

    /// Interrupts the call that sleeps here.
    pub fn cancel(&self) {
        self.send(&packet(4, [0; 3], 0, &[])).expect("sent");
    }

    pub fn status(&self) -> String {
        let answer = self.call(&packet(6, [0; 3], 0, &[]));
        String::from_utf8(answer.data).expect("a text")
    }

    /// How many calls sleep.
    pub fn sleepers(&self) -> usize {
        let status = self.status();
        let list = status.split("------ Sleepers --------\n").nth(1).expect("a list");
        list.lines().skip(1).take_while(|line| !line.is_empty()).count()
    }

    /// Waits until so many calls sleep.
    pub fn see_asleep(&self, count: usize) {
        until("sleepers", || self.sleepers() == count);
    }
}
