//! What the program wrote for one event.

use std::str::FromStr;

use crate::event::Event;

#[derive(Clone, Debug, PartialEq, Eq)]
pub enum Answer {
    /// To every event but a query and a reading. The position is that of the operation that
    /// decided, where judging did.
    Report { code: i32, position: Option<usize>, value: i32, looks: u32, wakings: Vec<Waking> },
    /// To a query.
    State(State),
    /// To a reading.
    Reading(Reading),
}

/// A semaphore as a query shows it.
#[derive(Clone, Copy, Debug, PartialEq, Eq)]
pub struct State {
    pub code: i32,
    pub value: i32,
    pub last: u8,
    pub waits: Waits,
}

/// How many wait at a semaphore.
#[derive(Clone, Copy, Debug, PartialEq, Eq)]
pub struct Waits {
    pub for_increase: u32,
    pub for_zero: u32,
}

/// The semaphores of a set in their order; none where the reading is refused.
#[derive(Clone, Debug, PartialEq, Eq)]
pub struct Reading {
    pub code: i32,
    pub semaphores: Vec<Semaphore>,
}

/// A semaphore as a reading shows it.
#[derive(Clone, Copy, Debug, PartialEq, Eq)]
pub struct Semaphore {
    pub value: i32,
    pub waits: Waits,
}

/// A sleeper that was finished, and the code it ended with; the position is that of the operation
/// that decided, where a look did.
#[derive(Clone, Copy, Debug, PartialEq, Eq)]
pub struct Waking {
    pub process: u8,
    pub code: i32,
    pub position: Option<usize>,
}

impl Answer {
    /// Reads the fields behind the position, if they are as the event's line has them.
    pub fn read(event: &Event, fields: &str) -> Option<Answer> {
        let fields: Vec<&str> = fields.split(' ').collect();
        match event {
            Event::Query { .. } => State::read(&fields).map(Answer::State),
            Event::ReadAll { .. } => Reading::read(&fields).map(Answer::Reading),
            _ => Answer::read_report(&fields),
        }
    }

    fn read_report(fields: &[&str]) -> Option<Answer> {
        match *fields {
            [code, value, looks, ref wakings @ ..] => {
                let (code, position) = code_and_position(code)?;
                let (value, looks) = (number(value)?, number(looks)?);
                let wakings = wakings.iter().map(|field| Waking::read(field));
                let wakings = wakings.collect::<Option<_>>()?;
                Some(Answer::Report { code, position, value, looks, wakings })
            }
            _ => None,
        }
    }

    pub fn code(&self) -> i32 {
        match self {
            Answer::Report { code, .. } => *code,
            Answer::State(state) => state.code,
            Answer::Reading(reading) => reading.code,
        }
    }

    pub fn position(&self) -> Option<usize> {
        match self {
            Answer::Report { position, .. } => *position,
            Answer::State(_) | Answer::Reading(_) => None,
        }
    }
}

impl State {
    fn read(fields: &[&str]) -> Option<State> {
        match *fields {
            [code, value, last, for_increase, for_zero] => Some(State {
                code: number(code)?,
                value: number(value)?,
                last: number(last)?,
                waits: Waits::read(for_increase, for_zero)?,
            }),
            _ => None,
        }
    }
}

impl Waits {
    pub fn any(&self) -> bool {
        self.for_increase + self.for_zero != 0
    }

    fn read(for_increase: &str, for_zero: &str) -> Option<Waits> {
        Some(Waits { for_increase: number(for_increase)?, for_zero: number(for_zero)? })
    }
}

impl Reading {
    /// A set has a semaphore at least, so only a refused reading shows none.
    fn read(fields: &[&str]) -> Option<Reading> {
        let (code, rest) = fields.split_first()?;
        let code = number(code)?;
        let semaphores: Vec<Semaphore> =
            rest.chunks(3).map(Semaphore::read).collect::<Option<_>>()?;
        let shown = !semaphores.is_empty();
        Some(Reading { code, semaphores }).filter(|_| shown == (code == 0))
    }
}

impl Semaphore {
    fn read(fields: &[&str]) -> Option<Semaphore> {
        match *fields {
            [value, for_increase, for_zero] => Some(Semaphore {
                value: number(value)?,
                waits: Waits::read(for_increase, for_zero)?,
            }),
            _ => None,
        }
    }
}

impl Waking {
    fn read(field: &str) -> Option<Waking> {
        let (process, code) = field.split_once('=')?;
        let (code, position) = code_and_position(code)?;
        Some(Waking { process: number(process)?, code, position })
    }
}

/// A code, alone or as code@position.
fn code_and_position(field: &str) -> Option<(i32, Option<usize>)> {
    match field.split_once('@') {
        None => Some((number(field)?, None)),
        Some((code, position)) => Some((number(code)?, Some(number(position)?))),
    }
}

/// A number as lines have it: decimal, with neither a plus nor zeros in front.
fn number<T: FromStr + ToString>(field: &str) -> Option<T> {
    field.parse().ok().filter(|number: &T| number.to_string() == field)
}

#[cfg(test)]
mod tests {
    use super::*;

    const EXIT: Event = Event::Exit { process: 1 };
    const QUERY: Event = Event::Query { process: 1, identifier: 0, number: 0 };
    const READ_ALL: Event = Event::ReadAll { process: 1, identifier: 0 };

    #[test]
    fn lines_as_document_01_has_them() {
        let waking = |process, code| Waking { process, code, position: None };
        let wakings = vec![waking(3, 43), waking(5, 0)];
        let wanted = Answer::Report { code: 0, position: None, value: 4, looks: 7, wakings };
        assert_eq!(Answer::read(&EXIT, "0 4 7 3=43 5=0"), Some(wanted));
        let waits = Waits { for_increase: 1, for_zero: 8 };
        let wanted = State { code: 0, value: 5, last: 2, waits };
        assert_eq!(Answer::read(&QUERY, "0 5 2 1 8"), Some(Answer::State(wanted)));
    }

    #[test]
    fn readings_of_each_length() {
        let semaphore = |value, for_increase, for_zero| Semaphore {
            value,
            waits: Waits { for_increase, for_zero },
        };
        let mut line = "0".to_string();
        let mut semaphores = Vec::new();
        for number in 0..8 {
            line += &format!(" {} {number} 0", 32_767 - number);
            semaphores.push(semaphore(32_767 - number, number as u32, 0));
            let wanted = Answer::Reading(Reading { code: 0, semaphores: semaphores.clone() });
            assert_eq!(Answer::read(&READ_ALL, &line), Some(wanted));
        }
        let refused = Answer::Reading(Reading { code: 22, semaphores: vec![] });
        assert_eq!((refused.code(), refused.position()), (22, None));
        assert_eq!(Answer::read(&READ_ALL, "22"), Some(refused));
    }

    /// The common line has as many fields as a set of one semaphore, so the event has to tell.
    #[test]
    fn the_event_tells_which_line_it_is() {
        let set_all = Event::SetAll { process: 1, identifier: 0, values: vec![] };
        let report =
            Answer::Report { code: 0, position: None, value: 0, looks: 2, wakings: vec![] };
        assert_eq!(Answer::read(&set_all, "0 0 2"), Some(report));
        assert_eq!(Answer::read(&READ_ALL, "0 0 2"), None);
        assert_eq!(Answer::read(&QUERY, "0 0 2 0"), None);
        assert!(matches!(Answer::read(&READ_ALL, "0 0 2 0"), Some(Answer::Reading(_))));
    }

    #[test]
    fn codes_with_the_operation_that_decided() {
        let wakings = vec![
            Waking { process: 3, code: 11, position: Some(1) },
            Waking { process: 5, code: 34, position: Some(12) },
        ];
        let wanted = Answer::Report { code: -1, position: Some(0), value: 0, looks: 2, wakings };
        assert_eq!(wanted.position(), Some(0));
        assert_eq!(Answer::read(&EXIT, "-1@0 0 2 3=11@1 5=34@12"), Some(wanted));
    }

    #[test]
    fn other_lines_are_none() {
        for fields in ["", "0 0", "0 0 0 1", "0 0 0 ", "0  0", "0 0 x", "0 0 0 1=0=0"] {
            assert_eq!(Answer::read(&EXIT, fields), None, "{fields:?}");
        }
        for fields in ["0 5 2 1", "0 5 2 1 8 0", "0 5 2 1 1=0", "11@0 0 0 0 0"] {
            assert_eq!(Answer::read(&QUERY, fields), None, "{fields:?}");
        }
        for fields in
            ["", "0", "0 5", "0 5 1", "0 5 1 0 7", "0 5 1 x", "0 5 -1 0", "22 0 0 0", "22 ", "22@0"]
        {
            assert_eq!(Answer::read(&READ_ALL, fields), None, "{fields:?}");
        }
    }

    #[test]
    fn other_codes_are_none() {
        let codes = [
            "", "@", "0@", "@1", "0@x", "0@-1", "0@+1", "0@01", "0@1@2", "0@ 1", "+1", "-0", "00@1",
        ];
        for code in codes {
            assert_eq!(Answer::read(&EXIT, &format!("{code} 0 0")), None, "{code:?}");
            assert_eq!(Answer::read(&EXIT, &format!("0 0 0 1={code}")), None, "{code:?}");
        }
        for fields in ["0 0@1 0", "0 0 0@1", "0 0 0 1@0=11", "0 0 0 1=11@"] {
            assert_eq!(Answer::read(&EXIT, fields), None, "{fields:?}");
        }
    }
}
