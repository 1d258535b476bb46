//! What an event returns.

use crate::errno::Errno;
use crate::judge::SEMAPHORES;
use crate::position::Position;
use crate::process::{Process, PROCESSES};

/// The code of a call that sleeps.
pub const ASLEEP: i32 = -1;

/// The answer to one event.
#[derive(Clone, Copy, Debug)]
pub enum Answer {
    Event(Report),
    Query(State),
    Reading(Reading),
}

/// The answer to every event but a query and a reading. The default is "done", with nothing else to
/// say.
#[derive(Clone, Copy, Debug, Default)]
pub struct Report {
    pub code: i32,
    /// The position of the operation that decided, where judging gave -1, 11 or 34.
    pub position: Option<Position>,
    pub value: i32,
    pub looks: u32,
    pub wakings: Wakings,
}

/// The answer to a query; the two wait counts are the numbers of ones in their masks.
#[derive(Clone, Copy, Debug, Default, PartialEq, Eq)]
pub struct State {
    pub code: i32,
    pub value: i32,
    pub last: u8,
    pub for_increase: u8,
    pub for_zero: u8,
}

/// The answer to a reading: how many semaphores the set has, at each number what a query of that
/// semaphore would show, and how many arrays were judged for that. A refused one has none.
#[derive(Clone, Copy, Debug, Default)]
pub struct Reading {
    pub code: i32,
    pub judged: u32,
    pub count: u8,
    pub values: [i32; SEMAPHORES],
    pub last: [u8; SEMAPHORES],
    pub for_increase: [u8; SEMAPHORES],
    pub for_zero: [u8; SEMAPHORES],
}

/// A sleeper that an event finished: its process number, the code it ended with and, where a look
/// gave 11 or 34, the position of the operation that decided.
#[derive(Clone, Copy, Debug, Default)]
pub struct Waking {
    pub process: u8,
    pub code: u8,
    pub position: Option<Position>,
}

/// The wakings of one event, in order. No process is woken twice in an event.
#[derive(Clone, Copy, Debug, Default)]
pub struct Wakings {
    list: [Waking; PROCESSES],
    length: usize,
}

impl Answer {
    pub fn code(&self) -> i32 {
        match self {
            Answer::Event(report) => report.code,
            Answer::Query(state) => state.code,
            Answer::Reading(reading) => reading.code,
        }
    }
}

impl From<Result<Report, Errno>> for Answer {
    fn from(result: Result<Report, Errno>) -> Answer {
        let refused = |errno: Errno| Report { code: errno.number().into(), ..Report::default() };
        Answer::Event(result.unwrap_or_else(refused))
    }
}

impl From<Result<State, Errno>> for Answer {
    fn from(result: Result<State, Errno>) -> Answer {
        let refused = |errno: Errno| State { code: errno.number().into(), ..State::default() };
        Answer::Query(result.unwrap_or_else(refused))
    }
}

impl From<Result<Reading, Errno>> for Answer {
    fn from(result: Result<Reading, Errno>) -> Answer {
        let refused = |errno: Errno| Reading { code: errno.number().into(), ..Reading::default() };
        Answer::Reading(result.unwrap_or_else(refused))
    }
}

impl Report {
    /// Nothing is done: the operation at this position decided.
    pub(crate) fn decided_at(position: Position, code: i32) -> Report {
        Report { code, position: Some(position), ..Report::default() }
    }
}

impl Reading {
    /// The semaphores of the set in order.
    pub fn states(&self) -> impl ExactSizeIterator<Item = State> + '_ {
        (0..usize::from(self.count)).map(|n| State {
            value: self.values[n],
            last: self.last[n],
            for_increase: self.for_increase[n],
            for_zero: self.for_zero[n],
            ..State::default()
        })
    }
}

impl Wakings {
    pub(crate) fn push(&mut self, process: Process, code: u8, position: Option<Position>) {
        self.list[self.length] = Waking { process: process.number(), code, position };
        self.length += 1;
    }

    pub fn as_slice(&self) -> &[Waking] {
        &self.list[..self.length]
    }
}
