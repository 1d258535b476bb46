//! The body of an event, to and from its bytes.

use crate::event::{Event, KINDS};
use crate::field::Field;
use crate::operation::Operation;
use crate::refusal::Refusal;

pub fn encode(event: &Event) -> Vec<u8> {
    let mut body = vec![event.kind().number];
    for (_, field) in event.clone().fields() {
        match field {
            Field::Count(value) | Field::Process(value) => body.push(*value),
            Field::Number(value) | Field::Mode(value) => {
                body.extend_from_slice(&value.to_le_bytes());
            }
            Field::Identifier(value) | Field::Value(value) => {
                body.extend_from_slice(&value.to_le_bytes());
            }
            Field::User(value) | Field::Group(value) => {
                body.extend_from_slice(&value.to_le_bytes());
            }
            Field::Wait(wait) => body.extend(wait.iter().flat_map(|wait| wait.to_le_bytes())),
            Field::Time(time) => body.extend_from_slice(&time.to_le_bytes()),
            Field::Values(values) => {
                body.push(values.len() as u8);
                body.extend(values.iter().flat_map(|value| value.to_le_bytes()));
            }
            Field::Operations(operations) => {
                body.push(operations.len() as u8);
                for operation in operations {
                    body.extend_from_slice(&operation.number.to_le_bytes());
                    body.extend_from_slice(&operation.amount.to_le_bytes());
                    body.extend_from_slice(&operation.flags.to_le_bytes());
                }
            }
        }
    }
    body
}

/// The event, or what is wrong with its body.
pub fn decode(body: &[u8]) -> Result<Event, Refusal> {
    if body.is_empty() {
        return Err(Refusal { code: 204, words: "the body is empty".into() });
    }
    let mut bytes = Bytes { body, read: 0 };
    let number = bytes.u8();
    let kind = KINDS.iter().find(|kind| kind.number == number);
    let unknown = || Refusal { code: 203, words: format!("there is no kind {number}") };
    let mut event = kind.ok_or_else(unknown)?.blank.clone();
    for (_, field) in event.fields() {
        match field {
            Field::Count(value) | Field::Process(value) => *value = bytes.u8(),
            Field::Number(value) | Field::Mode(value) => *value = bytes.u16(),
            Field::Identifier(value) | Field::Value(value) => *value = bytes.i32(),
            Field::User(value) | Field::Group(value) => *value = bytes.u32(),
            Field::Wait(wait) => *wait = wait.map(|_| bytes.u32()),
            Field::Time(time) => *time = bytes.u64(),
            Field::Values(values) => *values = bytes.values(),
            Field::Operations(operations) => *operations = bytes.operations(),
        }
    }
    let (wanted, present) = (bytes.read, body.len());
    if wanted != present {
        let words = format!("a body of kind {number} has {wanted} bytes here, not {present}");
        return Err(Refusal { code: 204, words });
    }
    Ok(event)
}

/// A body from which fields are read. Beyond its end there are zeros, so that what was read tells
/// how long it has to be.
struct Bytes<'a> {
    body: &'a [u8],
    read: usize,
}

impl Bytes<'_> {
    fn take<const N: usize>(&mut self) -> [u8; N] {
        let mut bytes = [0; N];
        for byte in &mut bytes {
            *byte = self.body.get(self.read).copied().unwrap_or(0);
            self.read += 1;
        }
        bytes
    }

    fn u8(&mut self) -> u8 {
        u8::from_le_bytes(self.take())
    }

    fn u16(&mut self) -> u16 {
        u16::from_le_bytes(self.take())
    }

    fn i16(&mut self) -> i16 {
        i16::from_le_bytes(self.take())
    }

    fn i32(&mut self) -> i32 {
        i32::from_le_bytes(self.take())
    }

    fn u32(&mut self) -> u32 {
        u32::from_le_bytes(self.take())
    }

    fn u64(&mut self) -> u64 {
        u64::from_le_bytes(self.take())
    }

    fn values(&mut self) -> Vec<i32> {
        let count = self.u8();
        (0..count).map(|_| self.i32()).collect()
    }

    fn operations(&mut self) -> Vec<Operation> {
        let count = self.u8();
        let operation = |_| Operation { number: self.u16(), amount: self.i16(), flags: self.u16() };
        (0..count).map(operation).collect()
    }
}
