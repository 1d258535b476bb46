//! The kinds of events: what the comparer has to know of each.

use second::event::{self, Body, Operation};

use crate::random::Rng;

#[derive(Clone, Copy)]
pub struct EventKind {
    /// The first byte of its bodies.
    pub number: u8,
    pub name: &'static str,
    /// It asks for a state: its line has neither looks nor wakings.
    pub asks: bool,
    /// The codes it can answer, and the codes it can wake with.
    pub codes: &'static [i32],
    pub wakings: &'static [i32],
    /// A good body of small numbers.
    pub small: fn(&mut Rng) -> Body,
    /// A good body whose fields are drawn one by one; where it has operations or values, so many.
    pub drawn: fn(&mut dyn FnMut() -> u64, usize) -> Body,
}

/// By their numbers.
pub const EVENTS: [EventKind; 12] = [
    EventKind {
        number: 1,
        name: "create",
        asks: false,
        codes: &[0, 3, 16, 22, 28],
        wakings: &[],
        small: |_| event::create(1, 1, 1),
        drawn: |field, _| event::create(field() as u8, field() as u8, field() as u16),
    },
    EventKind {
        number: 2,
        name: "operate",
        asks: false,
        codes: &[0, -1, 3, 7, 11, 13, 16, 22, 27, 34],
        wakings: &[0, 11, 34],
        small: |rng| event::operate(1, 0, &vec![(0, 1, 0); rng.below(10)]),
        drawn: |field, operations| {
            let array = drawn_array(field, operations);
            event::operate(field() as u8, field() as i32, &array)
        },
    },
    EventKind {
        number: 3,
        name: "set value",
        asks: false,
        codes: &[0, 3, 13, 16, 22, 34],
        wakings: &[0, 11, 34],
        small: |_| event::set_value(1, 0, 0, 0),
        drawn: |field, _| {
            event::set_value(field() as u8, field() as i32, field() as u16, field() as i32)
        },
    },
    EventKind {
        number: 4,
        name: "remove",
        asks: false,
        codes: &[0, 1, 3, 16, 22],
        wakings: &[43],
        small: |_| event::remove(1, 0),
        drawn: |field, _| event::remove(field() as u8, field() as i32),
    },
    EventKind {
        number: 5,
        name: "signal",
        asks: false,
        codes: &[0, 3],
        wakings: &[4],
        small: |_| event::signal(1),
        drawn: |field, _| event::signal(field() as u8),
    },
    EventKind {
        number: 6,
        name: "exit",
        asks: false,
        codes: &[0, 3],
        wakings: &[0, 11, 34],
        small: |_| event::exit(1),
        drawn: |field, _| event::exit(field() as u8),
    },
    EventKind {
        number: 7,
        name: "query",
        asks: true,
        codes: &[0, 3, 13, 16, 22],
        wakings: &[],
        small: |_| event::query(1, 0, 0),
        drawn: |field, _| event::query(field() as u8, field() as i32, field() as u16),
    },
    EventKind {
        number: 8,
        name: "timed operate",
        asks: false,
        codes: &[0, -1, 3, 7, 11, 13, 16, 22, 27, 34],
        wakings: &[0, 11, 34],
        small: |rng| event::timed_operate(1, 0, 1, &vec![(0, 1, 0); rng.below(10)]),
        drawn: |field, operations| {
            let array = drawn_array(field, operations);
            event::timed_operate(field() as u8, field() as i32, field() as u32, &array)
        },
    },
    EventKind {
        number: 9,
        name: "clock",
        asks: false,
        codes: &[0, 22],
        wakings: &[11],
        small: |_| event::clock(1),
        drawn: |field, _| event::clock(field()),
    },
    EventKind {
        number: 10,
        name: "set all",
        asks: false,
        codes: &[0, 3, 13, 16, 22, 34],
        wakings: &[0, 11, 34],
        small: |rng| event::set_all(1, 0, &vec![0; rng.below(10)]),
        drawn: |field, values| {
            let values: Vec<i32> = (0..values).map(|_| field() as i32).collect();
            event::set_all(field() as u8, field() as i32, &values)
        },
    },
    EventKind {
        number: 11,
        name: "read all",
        asks: true,
        codes: &[0, 3, 13, 16, 22],
        wakings: &[],
        small: |_| event::read_all(1, 0),
        drawn: |field, _| event::read_all(field() as u8, field() as i32),
    },
    EventKind {
        number: 12,
        name: "act as",
        asks: false,
        codes: &[0, 3, 16],
        wakings: &[],
        small: |_| event::act_as(1, 1, 1),
        drawn: |field, _| event::act_as(field() as u8, field() as u32, field() as u32),
    },
];

fn drawn_array(field: &mut dyn FnMut() -> u64, operations: usize) -> Vec<Operation> {
    (0..operations).map(|_| (field() as u16, field() as i16, field() as u16)).collect()
}

/// Where the kind of a good body stands in `EVENTS`.
pub fn place(body: &[u8]) -> usize {
    EVENTS.iter().position(|kind| kind.number == body[0]).expect("a good body is of some kind")
}

/// The numbers that no kind has, from 0 up.
pub fn unknown() -> Vec<u8> {
    (0..=u8::MAX).filter(|number| EVENTS.iter().all(|kind| kind.number != *number)).collect()
}

/// The same event by another process; a time is nobody's.
pub fn by(process: u8, mut body: Body) -> Body {
    if body[0] != 9 {
        body[1] = process;
    }
    body
}

/// The body without the process behind its kind.
pub fn callerless(mut body: Body) -> Body {
    body.remove(1);
    body
}

#[cfg(test)]
mod tests {
    use super::*;
    use second::{Bad, Event};

    /// Those that the second program does not know either.
    #[test]
    fn unknown_numbers() {
        let unknown = unknown();
        assert_eq!(unknown[..4], [0, 13, 14, 15]);
        for number in 0..=u8::MAX {
            let refused = matches!(Event::decode(&[number]), Err(Bad::Kind));
            assert_eq!(refused, unknown.contains(&number), "kind {number}");
        }
    }

    #[test]
    fn bodies_are_good_and_of_their_kind() {
        for (index, kind) in EVENTS.iter().enumerate() {
            let mut rng = Rng::new(3, 0);
            for body in [(kind.small)(&mut rng), (kind.drawn)(&mut || rng.next(), 255)] {
                assert!(Event::decode(&body).is_ok(), "{}", kind.name);
                assert_eq!(place(&body), index);
                assert!(
                    matches!(Event::decode(&callerless(body)), Err(Bad::Body)),
                    "{}",
                    kind.name
                );
            }
        }
    }
}
