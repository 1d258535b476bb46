//! The eleven events and their bodies in a run file, read and written.

use crate::bad::Bad;

/// An event, with the fields as they stand in its body; an operate's operations and a setting's
/// values are lent. An operate has a body of one kind without a wait, and of another with it.
#[derive(Clone, Copy, Debug)]
pub enum Event<'a> {
    Create { process: u8, count: u8, mode: u16 },
    Operate { process: u8, identifier: i32, wait: Option<u32>, operations: &'a [u8] },
    SetValue { process: u8, identifier: i32, number: u16, value: i32 },
    Remove { process: u8, identifier: i32 },
    Signal { process: u8 },
    Exit { process: u8 },
    Query { process: u8, identifier: i32, number: u16 },
    Clock { time: u64 },
    SetAll { process: u8, identifier: i32, values: &'a [u8] },
    ReadAll { process: u8, identifier: i32 },
    ActAs { process: u8, user: u32, group: u32 },
}

/// Bytes of one operation, and of one value.
pub const OPERATION: usize = 6;
pub const VALUE: usize = 4;

impl<'a> Event<'a> {
    /// Reads a body, or says what is wrong with it. Where it is inlined, a file is checked without
    /// making its events.
    #[inline(always)]
    pub fn decode(body: &'a [u8]) -> Result<Event<'a>, Bad> {
        Ok(match *body {
            [1, process, count, n, m] => {
                Event::Create { process, count, mode: u16::from_le_bytes([n, m]) }
            }
            [2, process, a, b, c, d, number, ref operations @ ..]
                if operations.len() == OPERATION * usize::from(number) =>
            {
                Event::Operate { process, identifier: signed([a, b, c, d]), wait: None, operations }
            }
            [3, process, a, b, c, d, n, m, e, f, g, h] => Event::SetValue {
                process,
                identifier: signed([a, b, c, d]),
                number: u16::from_le_bytes([n, m]),
                value: signed([e, f, g, h]),
            },
            [4, process, a, b, c, d] => Event::Remove { process, identifier: signed([a, b, c, d]) },
            [5, process] => Event::Signal { process },
            [6, process] => Event::Exit { process },
            [7, process, a, b, c, d, n, m] => Event::Query {
                process,
                identifier: signed([a, b, c, d]),
                number: u16::from_le_bytes([n, m]),
            },
            [8, process, a, b, c, d, e, f, g, h, number, ref operations @ ..]
                if operations.len() == OPERATION * usize::from(number) =>
            {
                let wait = Some(u32::from_le_bytes([e, f, g, h]));
                Event::Operate { process, identifier: signed([a, b, c, d]), wait, operations }
            }
            [9, a, b, c, d, e, f, g, h] => {
                Event::Clock { time: u64::from_le_bytes([a, b, c, d, e, f, g, h]) }
            }
            [10, process, a, b, c, d, number, ref values @ ..]
                if values.len() == VALUE * usize::from(number) =>
            {
                Event::SetAll { process, identifier: signed([a, b, c, d]), values }
            }
            [11, process, a, b, c, d] => {
                Event::ReadAll { process, identifier: signed([a, b, c, d]) }
            }
            [12, process, a, b, c, d, e, f, g, h] => Event::ActAs {
                process,
                user: u32::from_le_bytes([a, b, c, d]),
                group: u32::from_le_bytes([e, f, g, h]),
            },
            [] | [1..=12, ..] => return Err(Bad::Body),
            [_, ..] => return Err(Bad::Kind),
        })
    }
}

fn signed(bytes: [u8; 4]) -> i32 {
    i32::from_le_bytes(bytes)
}

/// The body of one event, as the functions below write it for tests and for the comparer.
pub type Body = Vec<u8>;
/// Number, amount and flags of one operation.
pub type Operation = (u16, i16, u16);

pub fn create(process: u8, count: u8, mode: u16) -> Body {
    let [n, m] = mode.to_le_bytes();
    vec![1, process, count, n, m]
}

pub fn operate(process: u8, identifier: i32, operations: &[Operation]) -> Body {
    let [a, b, c, d] = identifier.to_le_bytes();
    with_operations(vec![2, process, a, b, c, d], operations)
}

/// An operate with a wait, in milliseconds.
pub fn timed_operate(process: u8, identifier: i32, wait: u32, operations: &[Operation]) -> Body {
    let [a, b, c, d] = identifier.to_le_bytes();
    let [e, f, g, h] = wait.to_le_bytes();
    with_operations(vec![8, process, a, b, c, d, e, f, g, h], operations)
}

/// The number of operations is the low byte of their count.
fn with_operations(mut body: Body, operations: &[Operation]) -> Body {
    body.push(operations.len() as u8);
    for (number, amount, flags) in operations {
        body.extend_from_slice(&number.to_le_bytes());
        body.extend_from_slice(&amount.to_le_bytes());
        body.extend_from_slice(&flags.to_le_bytes());
    }
    body
}

pub fn set_value(process: u8, identifier: i32, number: u16, value: i32) -> Body {
    let [a, b, c, d] = identifier.to_le_bytes();
    let [n, m] = number.to_le_bytes();
    let [e, f, g, h] = value.to_le_bytes();
    vec![3, process, a, b, c, d, n, m, e, f, g, h]
}

pub fn remove(process: u8, identifier: i32) -> Body {
    let [a, b, c, d] = identifier.to_le_bytes();
    vec![4, process, a, b, c, d]
}

pub fn signal(process: u8) -> Body {
    vec![5, process]
}

pub fn exit(process: u8) -> Body {
    vec![6, process]
}

pub fn query(process: u8, identifier: i32, number: u16) -> Body {
    let [a, b, c, d] = identifier.to_le_bytes();
    let [n, m] = number.to_le_bytes();
    vec![7, process, a, b, c, d, n, m]
}

pub fn clock(time: u64) -> Body {
    let [a, b, c, d, e, f, g, h] = time.to_le_bytes();
    vec![9, a, b, c, d, e, f, g, h]
}

/// The number of values is the low byte of their count.
pub fn set_all(process: u8, identifier: i32, values: &[i32]) -> Body {
    let [a, b, c, d] = identifier.to_le_bytes();
    let mut body = vec![10, process, a, b, c, d, values.len() as u8];
    body.extend(values.iter().flat_map(|value| value.to_le_bytes()));
    body
}

pub fn read_all(process: u8, identifier: i32) -> Body {
    let [a, b, c, d] = identifier.to_le_bytes();
    vec![11, process, a, b, c, d]
}

pub fn act_as(process: u8, user: u32, group: u32) -> Body {
    let [a, b, c, d] = user.to_le_bytes();
    let [e, f, g, h] = group.to_le_bytes();
    vec![12, process, a, b, c, d, e, f, g, h]
}
