//! The eleven events. All that a kind has of its own is said here.

use std::mem::discriminant;
use std::ops::BitOr;

use crate::codes::OUT_OF_RANGE;
use crate::count::counted;
use crate::field::Field;
use crate::mode::{self, ALTER, READ};
use crate::operation::{array_in_words, Operation, NOWAIT};
use crate::values;

/// Any value that fits the body is kept, also one that every host refuses. The process is the
/// caller, but of a signal and an exit, which happen to it.
#[derive(Clone, Debug, PartialEq, Eq)]
pub enum Event {
    Create {
        process: u8,
        count: u8,
        mode: u16,
    },
    /// At most 255 operations, since their number is one byte. The wait is in milliseconds.
    Operate {
        process: u8,
        identifier: i32,
        wait: Option<u32>,
        operations: Vec<Operation>,
    },
    SetValue {
        process: u8,
        identifier: i32,
        number: u16,
        value: i32,
    },
    Remove {
        process: u8,
        identifier: i32,
    },
    Signal {
        process: u8,
    },
    Exit {
        process: u8,
    },
    Query {
        process: u8,
        identifier: i32,
        number: u16,
    },
    /// The present time, in milliseconds.
    Clock {
        time: u64,
    },
    /// At most 255 values, since their number is one byte.
    SetAll {
        process: u8,
        identifier: i32,
        values: Vec<i32>,
    },
    ReadAll {
        process: u8,
        identifier: i32,
    },
    ActAs {
        process: u8,
        user: u32,
        group: u32,
    },
}

pub struct Kind {
    /// The first byte of a body.
    pub number: u8,
    /// The first word of a line, and what the help has to add.
    pub word: &'static str,
    pub about: &'static str,
    /// An event of the kind, its fields not yet filled in.
    pub blank: Event,
}

/// A row for each kind of body. An operate has two, side by side: without a wait, then with it.
pub static KINDS: [Kind; 12] = [
    Kind {
        number: 1,
        word: "create",
        about: "a set of COUNT semaphores",
        blank: Event::Create { process: 0, count: 0, mode: mode::LEFT_OUT },
    },
    Kind {
        number: 2,
        word: "operate",
        about: "all the operations, or sleep",
        blank: Event::Operate { process: 0, identifier: 0, wait: None, operations: Vec::new() },
    },
    Kind {
        number: 8,
        word: "operate",
        about: "the same, asleep for at most WAIT ms",
        blank: Event::Operate { process: 0, identifier: 0, wait: Some(0), operations: Vec::new() },
    },
    Kind {
        number: 3,
        word: "set",
        about: "set one semaphore's value",
        blank: Event::SetValue { process: 0, identifier: 0, number: 0, value: 0 },
    },
    Kind {
        number: 4,
        word: "remove",
        about: "",
        blank: Event::Remove { process: 0, identifier: 0 },
    },
    Kind { number: 5, word: "signal", about: "", blank: Event::Signal { process: 0 } },
    Kind { number: 6, word: "exit", about: "", blank: Event::Exit { process: 0 } },
    Kind {
        number: 7,
        word: "query",
        about: "",
        blank: Event::Query { process: 0, identifier: 0, number: 0 },
    },
    Kind {
        number: 9,
        word: "time",
        about: "tell the present time, in ms",
        blank: Event::Clock { time: 0 },
    },
    Kind {
        number: 10,
        word: "set-all",
        about: "set all values of a set at once",
        blank: Event::SetAll { process: 0, identifier: 0, values: Vec::new() },
    },
    Kind {
        number: 11,
        word: "read-all",
        about: "all values of a set, and how many wait",
        blank: Event::ReadAll { process: 0, identifier: 0 },
    },
    Kind {
        number: 12,
        word: "as",
        about: "give a process a user and a group number",
        blank: Event::ActAs { process: 0, user: 0, group: 0 },
    },
];

const NO_SET: &str = "no live set has this identifier";
const NO_SEMAPHORE: &str = "no live set has this identifier, or it has no such semaphore";
const OTHER_COUNT: &str = "no live set has this identifier, or it has another number of semaphores";

impl Event {
    pub fn kind(&self) -> &'static Kind {
        let waits = |event: &Event| matches!(event, Event::Operate { wait: Some(_), .. });
        let same = |kind: &&Kind| {
            discriminant(&kind.blank) == discriminant(self) && waits(&kind.blank) == waits(self)
        };
        KINDS.iter().find(same).expect("every kind stands in the table")
    }

    /// The fields in the order of the body, each with what stands in front of it in a text.
    pub fn fields(&mut self) -> Vec<(&'static str, Field<'_>)> {
        match self {
            Event::Create { process, count, mode } => {
                vec![by(process), ("", Field::Count(count)), ("mode=", Field::Mode(mode))]
            }
            Event::Operate { process, identifier, wait, operations } => vec![
                ("", Field::Process(process)),
                ("set=", Field::Identifier(identifier)),
                ("wait=", Field::Wait(wait)),
                ("", Field::Operations(operations)),
            ],
            Event::SetValue { process, identifier, number, value } => vec![
                by(process),
                set(identifier),
                ("number=", Field::Number(number)),
                ("value=", Field::Value(value)),
            ],
            Event::Query { process, identifier, number } => {
                vec![by(process), set(identifier), ("number=", Field::Number(number))]
            }
            Event::SetAll { process, identifier, values } => {
                vec![by(process), set(identifier), ("values=", Field::Values(values))]
            }
            Event::Remove { process, identifier } | Event::ReadAll { process, identifier } => {
                vec![by(process), set(identifier)]
            }
            Event::Signal { process } | Event::Exit { process } => {
                vec![("", Field::Process(process))]
            }
            Event::Clock { time } => vec![("", Field::Time(time))],
            Event::ActAs { process, user, group } => vec![
                ("", Field::Process(process)),
                ("user=", Field::User(user)),
                ("group=", Field::Group(group)),
            ],
        }
    }

    /// The same in the order of a text, whose first field has no name: a caller that has one comes
    /// behind it.
    pub fn in_text(&mut self) -> Vec<(&'static str, Field<'_>)> {
        let mut fields = self.fields();
        if !fields[0].0.is_empty() {
            fields.swap(0, 1);
        }
        fields
    }

    /// The caller, or whom the event happens to.
    pub fn process(&self) -> Option<u8> {
        match self.clone().fields()[0] {
            (_, Field::Process(&mut process)) => Some(process),
            _ => None,
        }
    }

    /// The set that the event is about.
    pub fn identifier(&self) -> Option<i32> {
        self.clone().fields().into_iter().find_map(|(_, field)| match field {
            Field::Identifier(identifier) => Some(*identifier),
            _ => None,
        })
    }

    /// The event in words; `who` is the name of its process.
    pub fn in_words(&self, who: &str) -> String {
        match self {
            Event::Create { count, mode, .. } => {
                let semaphores = counted(u32::from(*count), "semaphore");
                format!("{who} creates a set of {semaphores}, mode {}", mode::name(*mode))
            }
            Event::Operate { identifier, wait, operations, .. } => {
                let at_most = |wait| format!(", waiting {wait} ms at most");
                let wait = wait.map(at_most).unwrap_or_default();
                let operations = match &operations[..] {
                    [] => "no operations".to_string(),
                    all => array_in_words(all),
                };
                format!("{who} on set {identifier}{wait}: {operations}")
            }
            Event::SetValue { identifier, number, value, .. } => {
                format!("{who} sets semaphore {number} of set {identifier} to {value}")
            }
            Event::Remove { identifier, .. } => format!("{who} removes set {identifier}"),
            Event::Signal { .. } => format!("signal {who}"),
            Event::Exit { .. } => format!("{who} exits"),
            Event::Query { identifier, number, .. } => {
                format!("{who} queries semaphore {number} of set {identifier}")
            }
            Event::Clock { time } => format!("the time is {time} ms"),
            Event::SetAll { identifier, values, .. } => {
                format!("{who} sets all of set {identifier} to {}", values::in_words(values))
            }
            Event::ReadAll { identifier, .. } => format!("{who} reads all of set {identifier}"),
            Event::ActAs { user, group, .. } => format!("{who} acts as user {user}, group {group}"),
        }
    }

    /// What it needs of the mode of its set, as bits of the caller's class.
    pub fn needs(&self) -> u16 {
        match self {
            Event::SetValue { .. } | Event::SetAll { .. } => ALTER,
            Event::Query { .. } | Event::ReadAll { .. } => READ,
            Event::Operate { operations, .. } => {
                let needed =
                    |operation: &Operation| if operation.amount == 0 { READ } else { ALTER };
                operations.iter().map(needed).fold(0, BitOr::bitor)
            }
            _ => 0,
        }
    }

    /// Are sleepers looked at once it is done?
    pub fn looks(&self) -> bool {
        matches!(
            self,
            Event::Operate { .. }
                | Event::SetValue { .. }
                | Event::SetAll { .. }
                | Event::Exit { .. }
        )
    }

    /// Why the event is refused with this code; the position is that of the operation that decided.
    pub fn why_refused(&self, code: i32, position: Option<usize>) -> Option<&'static str> {
        Some(match (self, code) {
            (Event::Clock { .. }, _) => return None,
            (_, 3) => "no such process",
            (Event::Signal { .. } | Event::Exit { .. }, _) => return None,
            (_, 16) => "the process is asleep",
            (Event::Create { count: 1..=8, .. }, 22) => "the mode is above 777",
            (Event::Create { .. }, 22) => "the count isn't 1 to 8",
            (Event::Create { .. }, 28) => "no slot is free",
            (Event::Operate { operations, .. }, 22) if operations.is_empty() => "no operations",
            (Event::Operate { .. } | Event::Remove { .. } | Event::ReadAll { .. }, 22) => NO_SET,
            (Event::Operate { .. }, 7) => "too many operations",
            (Event::Operate { .. }, 27) => "the set has no such semaphore",
            (Event::Operate { operations, wait: Some(0), .. }, 11)
                if !nowait_at(operations, position) =>
            {
                "it would have to sleep, but may not wait"
            }
            (Event::Operate { .. }, 11) => "it would have to sleep, but nowait is given",
            (Event::Operate { .. }, 34) => OUT_OF_RANGE,
            (Event::SetValue { .. } | Event::Query { .. }, 22) => NO_SEMAPHORE,
            (Event::SetValue { .. }, 34) => "the value isn't 0 to 32767",
            (Event::SetAll { .. }, 22) => OTHER_COUNT,
            (Event::SetAll { .. }, 34) => "a value isn't 0 to 32767",
            (Event::Remove { .. }, 1) => "only the set's owner and user 0 may remove it",
            (event, 13) if event.needs() != 0 => "the set's mode doesn't permit it",
            _ => return None,
        })
    }
}

/// A caller that isn't the first field of a text, and the set that is.
fn by(process: &mut u8) -> (&'static str, Field<'_>) {
    ("by=", Field::Process(process))
}

fn set(identifier: &mut i32) -> (&'static str, Field<'_>) {
    ("", Field::Identifier(identifier))
}

fn nowait_at(operations: &[Operation], position: Option<usize>) -> bool {
    let operation = position.and_then(|position| operations.get(position));
    operation.map_or(false, |operation| operation.flags & NOWAIT != 0)
}
