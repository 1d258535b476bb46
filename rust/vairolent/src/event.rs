//! Any event as data: handed in, told of, and as it stands in a run file and in its listing.

use crate::answers::{Answer, Semaphore};
use crate::error::Error;
use crate::host::Host;
use crate::operation::Operation;
use crate::set::Set;
use crate::wakings::{Waking, Wakings};

/// One of the eleven events, with what it is handed. Each is the method of [`Host`] by its name.
#[derive(Clone, Copy, Debug, PartialEq, Eq)]
#[allow(missing_docs)]
pub enum Event<'a> {
    /// [`Host::create`]
    Create { process: u8, count: u8, mode: u16 },
    /// [`Host::operate`], or with a wait [`Host::operate_within`]
    Operate { process: u8, identifier: i32, wait: Option<u32>, operations: &'a [Operation] },
    /// [`Host::set_value`]
    SetValue { process: u8, identifier: i32, number: u16, value: i32 },
    /// [`Host::remove`]
    Remove { process: u8, identifier: i32 },
    /// [`Host::signal`]
    Signal { process: u8 },
    /// [`Host::exit`]
    Exit { process: u8 },
    /// [`Host::query`]
    Query { process: u8, identifier: i32, number: u16 },
    /// [`Host::clock`]
    Clock { time: u64 },
    /// [`Host::set_all`]
    SetAll { process: u8, identifier: i32, values: &'a [i32] },
    /// [`Host::query_set`]
    ReadAll { process: u8, identifier: i32 },
    /// [`Host::act_as`]
    ActAs { process: u8, user: u32, group: u32 },
}

/// What an event told.
#[derive(Clone, Debug, PartialEq, Eq)]
#[must_use = "an event may be refused, and may wake sleepers"]
pub enum Told {
    /// It is refused, and has changed nothing.
    Refused(Error),
    /// The process sleeps.
    Asleep {
        /// Which operation stopped, from 0.
        position: usize,
    },
    /// A create's identifier.
    Made(i32),
    /// It is done, and these sleepers were ended.
    Done(Wakings),
    /// A query's semaphore.
    Seen(Semaphore),
    /// The whole set of a read all.
    Read(Set),
}

impl From<Answer> for Told {
    fn from(answer: Answer) -> Told {
        match answer {
            Answer::Done(wakings) => Told::Done(wakings),
            Answer::Asleep { position } => Told::Asleep { position },
        }
    }
}

impl Host {
    /// Does any event, as the method by its name does it.
    ///
    /// ```
    /// use vairolent::{Error, Event, Host, Told};
    ///
    /// let mut host = Host::new();
    /// let create = Event::Create { process: 1, count: 1, mode: 0o666 };
    /// assert_eq!(host.run(&create), Told::Made(0));
    /// let remove = Event::Remove { process: 1, identifier: 4 };
    /// assert_eq!(host.run(&remove), Told::Refused(Error::Invalid));
    /// ```
    pub fn run(&mut self, event: &Event) -> Told {
        let told = match *event {
            Event::Create { process, count, mode } => {
                self.create(process, count, mode).map(Told::Made)
            }
            Event::Operate { process, identifier, wait: None, operations } => {
                self.operate(process, identifier, operations).map(Told::from)
            }
            Event::Operate { process, identifier, wait: Some(wait), operations } => {
                self.operate_within(process, identifier, operations, wait).map(Told::from)
            }
            Event::SetValue { process, identifier, number, value } => {
                self.set_value(process, identifier, number, value).map(Told::Done)
            }
            Event::Remove { process, identifier } => {
                self.remove(process, identifier).map(Told::Done)
            }
            Event::Signal { process } => self.signal(process).map(Told::Done),
            Event::Exit { process } => self.exit(process).map(Told::Done),
            Event::Query { process, identifier, number } => {
                self.query(process, identifier, number).map(Told::Seen)
            }
            Event::Clock { time } => self.clock(time).map(Told::Done),
            Event::SetAll { process, identifier, values } => {
                self.set_all(process, identifier, values).map(Told::Done)
            }
            Event::ReadAll { process, identifier } => {
                self.query_set(process, identifier).map(Told::Read)
            }
            Event::ActAs { process, user, group } => {
                self.act_as(process, user, group).map(|()| Told::Done(Wakings::none()))
            }
        };
        told.unwrap_or_else(Told::Refused)
    }
}

impl Event<'_> {
    /// Its body in a run file: the kind, and what it is handed, little-endian. Nothing where it has
    /// more operations or values than the one byte for their number can say.
    ///
    /// ```
    /// use vairolent::Event;
    ///
    /// let remove = Event::Remove { process: 1, identifier: 8 };
    /// assert_eq!(remove.body(), Some(vec![4, 1, 8, 0, 0, 0]));
    /// ```
    pub fn body(&self) -> Option<Vec<u8>> {
        Some(match *self {
            Event::Create { process, count, mode } => {
                [&[1, process, count][..], &mode.to_le_bytes()].concat()
            }
            Event::Operate { process, identifier, wait, operations } => {
                let kind = if wait.is_some() { 8 } else { 2 };
                let mut body = at_set(kind, process, identifier, &[]);
                body.extend(wait.iter().flat_map(|wait| wait.to_le_bytes()));
                body.push(u8::try_from(operations.len()).ok()?);
                body.extend(operations.iter().flat_map(|operation| operation.to_bytes()));
                body
            }
            Event::SetValue { process, identifier, number, value } => {
                let rest = [&number.to_le_bytes()[..], &value.to_le_bytes()].concat();
                at_set(3, process, identifier, &rest)
            }
            Event::Remove { process, identifier } => at_set(4, process, identifier, &[]),
            Event::Signal { process } => vec![5, process],
            Event::Exit { process } => vec![6, process],
            Event::Query { process, identifier, number } => {
                at_set(7, process, identifier, &number.to_le_bytes())
            }
            Event::Clock { time } => [&[9][..], &time.to_le_bytes()].concat(),
            Event::SetAll { process, identifier, values } => {
                let count = u8::try_from(values.len()).ok()?;
                let mut body = at_set(10, process, identifier, &[count]);
                body.extend(values.iter().flat_map(|value| value.to_le_bytes()));
                body
            }
            Event::ReadAll { process, identifier } => at_set(11, process, identifier, &[]),
            Event::ActAs { process, user, group } => {
                [&[12, process][..], &user.to_le_bytes(), &group.to_le_bytes()].concat()
            }
        })
    }

    /// The line that `replay` writes for it, behind its position in the run, once it told this.
    ///
    /// ```
    /// use vairolent::{Event, Host};
    ///
    /// let event = Event::Query { process: 1, identifier: 0, number: 0 };
    /// let told = Host::new().run(&event);
    /// assert_eq!(event.line(&told), "22 0 0 0 0");
    /// ```
    pub fn line(&self, told: &Told) -> String {
        match told {
            Told::Refused(error) => code(error.code(), error.position()) + self.zeros(),
            Told::Asleep { position } => code(-1, Some(*position)) + self.zeros(),
            Told::Made(identifier) => format!("0 {identifier} 0"),
            Told::Done(wakings) => {
                let mut line = format!("0 0 {}", wakings.looks());
                for Waking { process, ending } in wakings.clone() {
                    line += &format!(" {process}={}", code(ending.code(), ending.position()));
                }
                line
            }
            Told::Seen(seen) => {
                format!("0 {} {} {} {}", seen.value, seen.last, seen.increase, seen.zero)
            }
            Told::Read(set) => {
                let shown =
                    |each: &Semaphore| format!(" {} {} {}", each.value, each.increase, each.zero);
                "0".to_string() + &set.semaphores().iter().map(shown).collect::<String>()
            }
        }
    }

    /// All that a line has behind the code of an event that is not done.
    fn zeros(&self) -> &'static str {
        match self {
            Event::Query { .. } => " 0 0 0 0",
            Event::ReadAll { .. } => "",
            _ => " 0 0",
        }
    }
}

/// The body of a process's call at a set.
fn at_set(kind: u8, process: u8, identifier: i32, rest: &[u8]) -> Vec<u8> {
    [&[kind, process][..], &identifier.to_le_bytes(), rest].concat()
}

/// A code, with the position of the operation that decided, if one did.
fn code(code: i32, position: Option<usize>) -> String {
    match position {
        Some(position) => format!("{code}@{position}"),
        None => code.to_string(),
    }
}
