//! What a program and the daemon say to each other, one packet each; `c/preload/protocol.h` says the
//! same for the program's side.

use vairolent::{Operation, OPERATIONS};

use crate::errno::Errno;

const VERSION: u16 = 1;

/// Bytes ahead of a request's data: version, kind, three words, wait.
const HEAD: usize = 24;

/// A packet that is longer is none: it has one operation more than any call may have.
pub const LONGEST: usize = HEAD + (OPERATIONS + 1) * 6;

/// A call of a program, or what it has to say of one that sleeps.
#[derive(Debug, PartialEq, Eq)]
pub enum Request<'a> {
    Get { key: i32, count: i32, flags: i32 },
    Operate { identifier: i32, wait: Option<u64>, operations: Vec<Operation> },
    Control { identifier: i32, number: i32, command: i32, data: &'a [u8] },
    Cancel,
    Count { identifier: i32, alter: bool },
    Status,
}

impl Request<'_> {
    /// The request of a packet, or what is wrong with it. An operate's wait is in nanoseconds.
    pub fn read(packet: &[u8]) -> Result<Request<'_>, &'static str> {
        if packet.len() < HEAD || packet.len() > LONGEST {
            return Err("a packet of a length that no request has");
        }
        let (head, data) = packet.split_at(HEAD);
        if u16::from_le_bytes([head[0], head[1]]) != VERSION {
            return Err("a request of another version: the preload library is of another build");
        }
        let words = [word(&head[4..]), word(&head[8..]), word(&head[12..])];
        let wait = i64::from_le_bytes(head[16..].try_into().expect("eight bytes"));
        let [identifier, number, command] = words;
        Ok(match u16::from_le_bytes([head[2], head[3]]) {
            1 => Request::Get { key: words[0], count: words[1], flags: words[2] },
            2 if data.len() % 6 == 0 => Request::Operate {
                identifier,
                wait: u64::try_from(wait).ok(),
                operations: data.chunks_exact(6).map(operation).collect(),
            },
            3 => Request::Control { identifier, number, command, data },
            4 => Request::Cancel,
            5 => Request::Count { identifier, alter: words[1] != 0 },
            6 => Request::Status,
            _ => return Err("a request that there is not"),
        })
    }
}

impl Request<'_> {
    /// The packet that asks for the state.
    pub fn status_packet() -> [u8; HEAD] {
        let mut packet = [0; HEAD];
        packet[..2].copy_from_slice(&VERSION.to_le_bytes());
        packet[2] = 6;
        packet
    }
}

fn word(bytes: &[u8]) -> i32 {
    i32::from_le_bytes([bytes[0], bytes[1], bytes[2], bytes[3]])
}

fn operation(six: &[u8]) -> Operation {
    Operation::from_bytes(six.try_into().expect("six bytes"))
}

/// The answer to a call: a code, 0 or an errno, a value, and data.
#[derive(Debug, Default, PartialEq, Eq)]
pub struct Reply {
    pub code: i32,
    pub value: i32,
    pub data: Vec<u8>,
}

impl Reply {
    /// Bytes ahead of the data.
    pub const HEAD: usize = 8;

    pub fn of(value: i32) -> Reply {
        Reply { value, ..Reply::default() }
    }

    pub fn ended(code: i32) -> Reply {
        Reply { code, ..Reply::default() }
    }

    pub fn with(value: i32, data: Vec<u8>) -> Reply {
        Reply { code: 0, value, data }
    }

    pub fn packet(&self) -> Vec<u8> {
        [&self.code.to_le_bytes()[..], &self.value.to_le_bytes(), &self.data].concat()
    }
}

impl From<Errno> for Reply {
    fn from(errno: Errno) -> Reply {
        Reply::ended(errno.0)
    }
}

#[cfg(test)]
mod tests {
    use super::*;

    fn packet(kind: u16, words: [i32; 3], wait: i64, data: &[u8]) -> Vec<u8> {
        let mut packet = [VERSION.to_le_bytes(), kind.to_le_bytes()].concat();
        packet.extend(words.iter().flat_map(|word| word.to_le_bytes()));
        packet.extend(wait.to_le_bytes());
        packet.extend(data);
        packet
    }

    #[test]
    fn each_kind_is_read() {
        let read = |packet: &[u8], wanted: Request| assert_eq!(Request::read(packet), Ok(wanted));
        read(&packet(1, [5, 2, 0o600], 0, &[]), Request::Get { key: 5, count: 2, flags: 0o600 });
        let take = Operation::new(3, -1).undo();
        let operate = |wait| Request::Operate { identifier: 4, wait, operations: vec![take] };
        read(&packet(2, [4, 0, 0], -1, &take.to_bytes()), operate(None));
        read(&packet(2, [4, 0, 0], 7, &take.to_bytes()), operate(Some(7)));
        let data = &[1, 2, 3, 4][..];
        let control = Request::Control { identifier: -1, number: 2, command: 16, data };
        read(&packet(3, [-1, 2, 16], 0, data), control);
        read(&packet(4, [0; 3], 0, &[]), Request::Cancel);
        read(&packet(5, [4, 1, 0], 0, &[]), Request::Count { identifier: 4, alter: true });
        read(&packet(6, [0; 3], 0, &[]), Request::Status);
    }

    #[test]
    fn what_is_no_request_is_refused() {
        let good = packet(2, [4, 0, 0], -1, &[0; (OPERATIONS + 1) * 6]);
        assert!(Request::read(&good).is_ok());
        for length in (0..HEAD).chain([HEAD + 1, HEAD + 5]) {
            assert!(Request::read(&good[..length]).is_err(), "{length}");
        }
        assert!(Request::read(&[good, vec![0; 6]].concat()).is_err());
        for kind in [0, 7, u16::MAX] {
            assert!(Request::read(&packet(kind, [0; 3], 0, &[])).is_err());
        }
        let mut other = packet(6, [0; 3], 0, &[]);
        other[0] = 2;
        assert!(Request::read(&other).unwrap_err().contains("another build"));
    }

    #[test]
    fn an_answer_is_code_value_and_data() {
        let reply = Reply { code: 11, value: -1, data: vec![7] };
        assert_eq!(reply.packet(), [11, 0, 0, 0, 255, 255, 255, 255, 7]);
    }
}
