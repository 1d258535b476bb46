//! The events of a run file, through this package. Each program uses what it needs of this.

#![allow(dead_code)]

use second::event::{OPERATION, VALUE};
use vairolent::{Event, Host, Operation, Told};

/// An event, and beside it its operations or values as this package takes them.
pub struct Handed<'a> {
    pub event: second::Event<'a>,
    operations: Vec<Operation>,
    values: Vec<i32>,
}

impl<'a> From<second::Event<'a>> for Handed<'a> {
    fn from(event: second::Event<'a>) -> Handed<'a> {
        let mut handed = Handed { event, operations: Vec::new(), values: Vec::new() };
        match event {
            second::Event::Operate { operations, .. } => {
                handed.operations = operations.chunks_exact(OPERATION).map(operation).collect();
            }
            second::Event::SetAll { values, .. } => {
                handed.values = values.chunks_exact(VALUE).map(value).collect();
            }
            _ => {}
        }
        handed
    }
}

fn operation(six: &[u8]) -> Operation {
    Operation::from_bytes(six.try_into().expect("six bytes"))
}

/// Little-endian.
fn value(four: &[u8]) -> i32 {
    i32::from_le_bytes(four.try_into().expect("four bytes"))
}

impl Handed<'_> {
    /// As this package takes it.
    pub fn event(&self) -> Event<'_> {
        match self.event {
            second::Event::Create { process, count, mode } => {
                Event::Create { process, count, mode }
            }
            second::Event::Operate { process, identifier, wait, .. } => {
                Event::Operate { process, identifier, wait, operations: &self.operations }
            }
            second::Event::SetValue { process, identifier, number, value } => {
                Event::SetValue { process, identifier, number, value }
            }
            second::Event::Remove { process, identifier } => Event::Remove { process, identifier },
            second::Event::Signal { process } => Event::Signal { process },
            second::Event::Exit { process } => Event::Exit { process },
            second::Event::Query { process, identifier, number } => {
                Event::Query { process, identifier, number }
            }
            second::Event::Clock { time } => Event::Clock { time },
            second::Event::SetAll { process, identifier, .. } => {
                Event::SetAll { process, identifier, values: &self.values }
            }
            second::Event::ReadAll { process, identifier } => {
                Event::ReadAll { process, identifier }
            }
            second::Event::ActAs { process, user, group } => Event::ActAs { process, user, group },
        }
    }
}

/// Does an event.
pub fn run(host: &mut Host, handed: &Handed) -> Told {
    host.run(&handed.event())
}
