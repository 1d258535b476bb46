//! The checks of each kind of call in their order, and which of two decided where both refuse.

use std::fmt;

use second::event::{OPERATION, VALUE};
use second::{Event, MODE_MAX, OPERATIONS};

use crate::call::Call;
use crate::choice::MAX;
use crate::counts::{entries, lacking, of, Counts};
use crate::events::EVENTS;
use crate::line::Line;
use crate::world::{Slot, World};

#[derive(Clone, Copy, Debug, PartialEq, Eq, PartialOrd, Ord)]
pub enum Check {
    Process,
    Asleep,
    Count,
    Mode,
    Slots,
    Empty,
    Many,
    Set,
    Permission,
    Number,
    Range,
}

use Check::{Asleep, Count, Empty, Many, Mode, Number, Permission, Process, Range, Set, Slots};

/// A kind of event, a check that decided, and a later one that would refuse with another code.
pub type Pair = ((u8, Check), Check);

/// The checks of a kind, with their codes. Judging is none of them.
fn order(kind: u8) -> &'static [(Check, i32)] {
    match kind {
        1 => &[(Process, 3), (Asleep, 16), (Count, 22), (Mode, 22), (Slots, 28)],
        2 | 8 => &[
            (Process, 3),
            (Asleep, 16),
            (Empty, 22),
            (Many, 7),
            (Set, 22),
            (Number, 27),
            (Permission, 13),
        ],
        3 | 10 => {
            &[(Process, 3), (Asleep, 16), (Set, 22), (Permission, 13), (Number, 22), (Range, 34)]
        }
        4 => &[(Process, 3), (Asleep, 16), (Set, 22), (Permission, 1)],
        7 => &[(Process, 3), (Asleep, 16), (Set, 22), (Permission, 13), (Number, 22)],
        11 => &[(Process, 3), (Asleep, 16), (Set, 22), (Permission, 13)],
        12 => &[(Process, 3), (Asleep, 16)],
        _ => &[],
    }
}

/// The checks that would refuse a call, each taken alone, in their order. Those on a set go by its
/// slot, whatever is there.
fn refusing(world: &World, call: Call) -> Vec<(Check, i32)> {
    let refuses = |(check, _): &(Check, i32)| refuses(world, call, *check);
    order(call.kind).iter().copied().filter(refuses).collect()
}

fn refuses(world: &World, call: Call, check: Check) -> bool {
    let process = world.process(call.process);
    let slot = call.identifier.map_or(Slot::default(), |identifier| world.slot(identifier));
    match (check, call.event) {
        (Process, _) => process.is_none(),
        (Asleep, _) => process.map_or(false, |process| process.asleep.is_some()),
        (Count, Event::Create { count, .. }) => !(1..=8).contains(&count),
        (Mode, Event::Create { mode, .. }) => mode > MODE_MAX,
        (Slots, _) => world.is_full(),
        (Empty, Event::Operate { operations, .. }) => operations.is_empty(),
        (Many, Event::Operate { operations, .. }) => operations.len() > OPERATION * OPERATIONS,
        (Set, _) => slot.identifier != call.identifier,
        (Permission, _) => match (process, call.asked) {
            (Some(process), Some(asked)) => !slot.rights.permits(process.acts_as, asked),
            _ => false,
        },
        (Number, Event::Operate { operations, .. }) => {
            let number = |operation: &[u8]| u16::from_le_bytes([operation[0], operation[1]]);
            operations.chunks_exact(OPERATION).any(|operation| number(operation) >= slot.count)
        }
        (Number, Event::SetValue { number, .. } | Event::Query { number, .. }) => {
            number >= slot.count
        }
        (Number, Event::SetAll { values, .. }) => values.len() != VALUE * usize::from(slot.count),
        (Range, Event::SetValue { value, .. }) => !(0..=MAX).contains(&value),
        (Range, Event::SetAll { values, .. }) => {
            let value = |four: &[u8]| i32::from_le_bytes([four[0], four[1], four[2], four[3]]);
            values.chunks_exact(VALUE).any(|four| !(0..=MAX).contains(&value(four)))
        }
        _ => false,
    }
}

/// Was a call permitted that came so far and was answered as the rules say?
pub fn permitted(world: &World, call: Call, line: &Line) -> Option<bool> {
    let checks = order(call.kind);
    let place = checks.iter().position(|(check, _)| *check == Permission)?;
    if checks[..place].iter().any(|(check, _)| refuses(world, call, *check)) {
        return None;
    }
    let denied = refuses(world, call, Permission);
    (denied == (line.code.number == checks[place].1)).then_some(!denied)
}

/// What a call shows: the check that decided, before each later one that has another code.
pub fn decided(world: &World, call: Call, line: &Line) -> Vec<Pair> {
    match &refusing(world, call)[..] {
        [(first, code), later @ ..] if *code == line.code.number => {
            let later = later.iter().filter(|(_, other)| other != code);
            later.map(|(check, _)| ((call.kind, *first), *check)).collect()
        }
        _ => Vec::new(),
    }
}

/// A kind and a check of it, the row's name, and those that have to come behind it.
type Wanted = ((u8, Check), String, Vec<Check>);

fn wanted() -> Vec<Wanted> {
    let mut wanted = Vec::new();
    for kind in EVENTS {
        let checks = order(kind.number);
        for (place, (first, code)) in checks.iter().enumerate() {
            let behind = checks[place + 1..].iter().filter(|(_, other)| other != code);
            let behind: Vec<Check> =
                behind.map(|(check, _)| *check).filter(|check| meet(*first, *check)).collect();
            if !behind.is_empty() {
                let name = format!("{}: {first} before", kind.name);
                wanted.push(((kind.number, *first), name, behind));
            }
        }
    }
    wanted
}

/// Can both refuse the same call? No process that there is not sleeps or may do something, and an
/// empty array asks for nothing.
fn meet(first: Check, later: Check) -> bool {
    !matches!((first, later), (Process, Asleep | Permission) | (Empty, Many | Number | Permission))
}

/// Each kind and check with those behind it.
pub fn rows(counts: &Counts<Pair>) -> impl Iterator<Item = (String, String)> + '_ {
    wanted().into_iter().map(|(key, name, _)| (name, entries(of(counts, key))))
}

/// The pairs that never came.
pub fn missing(counts: &Counts<Pair>) -> Vec<String> {
    let mut missing = Vec::new();
    for (key, name, checks) in wanted() {
        let lacking = lacking(counts, key, checks.into_iter());
        missing.extend(lacking.map(|check| format!("{name} {check}")));
    }
    missing
}

impl fmt::Display for Check {
    fn fmt(&self, f: &mut fmt::Formatter) -> fmt::Result {
        f.pad(&format!("{self:?}").to_lowercase())
    }
}

#[cfg(test)]
mod tests {
    use super::*;
    use crate::counts::count_each;
    use crate::line::followed;
    use crate::random::Rng;
    use crate::rights::mistakes;
    use crate::traffic::kind_named;
    use second::event::{act_as, create, operate, query, remove, set_value, Body};
    use second::{run_file, FILE_MAX};

    /// What the calls of a run show.
    fn shown(bodies: &[Body]) -> Vec<Vec<Pair>> {
        let mut world = World::default();
        let file = run_file(bodies);
        followed(&file, |event, line| {
            let shown = Call::of(event).map_or(Vec::new(), |call| decided(&world, call, line));
            world.follow(event, line);
            shown
        })
    }

    #[test]
    fn which_came_first() {
        let run = [
            act_as(1, 7, 9),
            create(1, 2, 0o600),
            act_as(2, 5, 5),
            set_value(2, 0, 2, -1),
            query(9, 4, 2),
            operate(2, 4, &[(2, 1, 0); 33]),
            remove(2, 4),
            operate(1, 0, &[(0, -1, 0)]),
            set_value(1, 4, 0, 0),
            // One mistake alone, and none.
            set_value(2, 0, 0, 0),
            query(8, 0, 0),
        ];
        let wanted = [
            vec![((3, Permission), Number), ((3, Permission), Range)],
            vec![((7, Process), Set), ((7, Process), Number)],
            vec![((2, Many), Set), ((2, Many), Number), ((2, Many), Permission)],
            vec![((4, Set), Permission)],
            vec![],
            vec![((3, Asleep), Set)],
            vec![],
            vec![],
        ];
        assert_eq!(shown(&run)[3..], wanted);
    }

    /// In a free slot every number is 0: no semaphore is there, and all but user 0 would be denied.
    #[test]
    fn in_a_free_slot() {
        let run = [act_as(2, 5, 5), operate(2, 0, &[(0, 1, 0)]), operate(8, 0, &[(0, 1, 0)])];
        let wanted = [vec![((2, Set), Number), ((2, Set), Permission)], vec![((2, Set), Number)]];
        assert_eq!(shown(&run)[1..], wanted);
    }

    /// A call that is answered otherwise shows nothing.
    #[test]
    fn only_as_the_rules_say() {
        let body = query(9, 4, 2);
        let call = Call::of(Event::decode(&body).expect("a good body")).expect("a call");
        let decided =
            |line| decided(&World::default(), call, &Line::read(line).expect("a line")).len();
        assert_eq!((decided("0 3 0 0 0 0"), decided("0 22 0 0 0 0")), (2, 0));
    }

    /// The second program reads the checks in the same way: where none refuses, judging is left.
    #[test]
    fn as_the_second_program_has_them() {
        for kind in ["mixed", "refusals", "random", "modes", "generations"] {
            let file = kind_named(kind).expect("a kind").make(Rng::new(3, 0), FILE_MAX);
            let mut world = World::default();
            followed(&file, |event, line| {
                if let Some(call) = Call::of(event) {
                    let (code, refusing) = (line.code.number, refusing(&world, call));
                    let expected = refusing.first().map_or(code, |(_, code)| *code);
                    assert_eq!(code, expected, "{kind}: {event:?}");
                    let judged = line.code.position.is_some() || code == 0;
                    assert_eq!(judged, refusing.is_empty(), "{kind}: {event:?}");
                }
                world.follow(event, line);
            });
        }
    }

    #[test]
    fn one_file_has_all_of_them() {
        let mut counts = Counts::new();
        count_each(&mut counts, shown(&mistakes()).concat());
        assert_eq!(missing(&counts), [""; 0]);
    }
}
