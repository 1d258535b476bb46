//! Follows the events of a file by their lines, to tell at which operations judging decided.

use std::cmp::Ordering;
use std::ops::RangeInclusive;

use second::event::OPERATION;
use second::{Event, NOWAIT, OPERATIONS};

use crate::line::{Code, Line};

/// What an operation decided.
#[derive(Clone, Copy, Debug, PartialEq, Eq, PartialOrd, Ord)]
pub enum Decision {
    /// The code of an operate, or of a waking.
    Operate(i32),
    Waking(i32),
    /// The 11 of an operate that would sleep and has a wait of 0.
    NoTime,
    /// The 34 of an adjustment.
    Adjustment,
    /// A waking, and the call had gone to sleep at a later operation, at this one, at an earlier.
    Before,
    There,
    Behind,
}

/// The position of the last operation that an array can have.
const LAST: u8 = OPERATIONS as u8 - 1;

/// All of them, with their names and the positions that have to come.
pub const DECISIONS: [(Decision, &str, RangeInclusive<u8>); 10] = [
    (Decision::Operate(-1), "operate: -1 at", 0..=LAST),
    (Decision::Operate(11), "operate: 11 at", 0..=LAST),
    (Decision::Operate(34), "operate: 34 at", 0..=LAST),
    (Decision::NoTime, "wait of 0: 11 at", 0..=LAST),
    (Decision::Waking(11), "waking: 11 at", 0..=LAST),
    (Decision::Waking(34), "waking: 34 at", 0..=LAST),
    (Decision::Adjustment, "adjustment: 34 at", 0..=LAST),
    (Decision::Before, "before its stop, at", 0..=LAST - 1),
    (Decision::There, "at its own stop, at", 0..=LAST),
    (Decision::Behind, "behind its stop, at", 1..=LAST),
];

#[derive(Default)]
pub struct Positions<'a> {
    /// Each process's last call that was not done at once: its operations, and which decided.
    calls: [(&'a [u8], u8); 9],
}

impl<'a> Positions<'a> {
    /// Follows one event: what was decided, and at which operations.
    pub fn follow(&mut self, event: Event<'a>, line: &Line) -> Vec<(Decision, u8)> {
        let mut decided = Vec::new();
        let by_judging = line.code.position;
        if let (Event::Operate { process, wait, operations, .. }, Some(at)) = (event, by_judging) {
            self.calls[usize::from(process)] = (operations, at);
            let decision = match (wait, line.code.number) {
                (Some(0), 11) if !has_nowait(operations, at) => Decision::NoTime,
                (_, code) => Decision::Operate(code),
            };
            decided.push((decision, at));
            decided.extend(by_adjustment(line.code, operations));
        }
        for &(process, code) in &line.wakings {
            if let Some(at) = code.position {
                let (operations, slept) = self.calls[usize::from(process)];
                decided.push((Decision::Waking(code.number), at));
                decided.push((side(at, slept), at));
                decided.extend(by_adjustment(code, operations));
            }
        }
        decided
    }
}

fn side(at: u8, slept: u8) -> Decision {
    match at.cmp(&slept) {
        Ordering::Less => Decision::Before,
        Ordering::Equal => Decision::There,
        Ordering::Greater => Decision::Behind,
    }
}

/// Is it the 34 of an adjustment? That is sure of an amount below 0: no value grows too large by it.
fn by_adjustment(code: Code, operations: &[u8]) -> Option<(Decision, u8)> {
    let position = code.position.filter(|_| code.number == 34)?;
    let operation = operation_at(operations, position)?;
    let amount = i16::from_le_bytes([operation[2], operation[3]]);
    (amount < 0).then_some((Decision::Adjustment, position))
}

fn has_nowait(operations: &[u8], position: u8) -> bool {
    let flags = |operation: &[u8]| u16::from_le_bytes([operation[4], operation[5]]);
    operation_at(operations, position).map_or(false, |operation| flags(operation) & NOWAIT != 0)
}

fn operation_at(operations: &[u8], position: u8) -> Option<&[u8]> {
    operations.chunks_exact(OPERATION).nth(position.into())
}

#[cfg(test)]
mod tests {
    use super::*;
    use crate::line::followed;
    use crate::scene::OPEN;
    use second::event::{clock, create, operate, set_value, signal, timed_operate, Body};
    use second::{run_file, NOWAIT, UNDO};

    /// What the events of a run show.
    fn decided(bodies: &[Body]) -> Vec<(Decision, u8)> {
        let mut positions = Positions::default();
        followed(&run_file(bodies), |event, line| positions.follow(event, line)).concat()
    }

    #[test]
    fn at_once() {
        let run = [
            create(8, 2, OPEN),
            operate(1, 0, &[(0, 0, 0), (1, 0, 0), (0, -1, NOWAIT)]),
            operate(1, 0, &[(1, 32_767, 0), (1, 1, 0)]),
            operate(1, 0, &[(1, -1, 0)]),
            // No operation decides these.
            operate(1, 0, &[(1, -1, 0)]),
            operate(2, 0, &[(2, 0, 0)]),
            operate(2, 0, &[(0, 0, 0)]),
            set_value(8, 0, 0, 32_768),
            signal(1),
        ];
        let wanted =
            [(Decision::Operate(11), 2), (Decision::Operate(34), 1), (Decision::Operate(-1), 0)];
        assert_eq!(decided(&run), wanted);
    }

    #[test]
    fn at_waking() {
        let run = [
            create(8, 3, OPEN),
            operate(1, 0, &[(0, 0, NOWAIT), (1, -1, 0)]),
            operate(2, 0, &[(2, 0, 0), (1, -1, 0), (2, 32_767, 0), (2, 1, 0)]),
            set_value(8, 0, 0, 1),
            set_value(8, 0, 1, 1),
        ];
        let wanted = [
            (Decision::Operate(-1), 1),
            (Decision::Operate(-1), 1),
            (Decision::Waking(11), 0),
            (Decision::Before, 0),
            (Decision::Waking(34), 3),
            (Decision::Behind, 3),
        ];
        assert_eq!(decided(&run), wanted);
    }

    /// An expiry names no operation.
    #[test]
    fn with_a_wait() {
        let run = [
            create(8, 2, OPEN),
            timed_operate(1, 0, 0, &[(0, 0, 0), (0, -1, 0)]),
            timed_operate(1, 0, 0, &[(0, -1, NOWAIT)]),
            timed_operate(1, 0, 0, &[(1, 32_767, 0), (1, 1, 0)]),
            timed_operate(1, 0, 1, &[(0, -1, 0)]),
            clock(1),
        ];
        let wanted = [
            (Decision::NoTime, 1),
            (Decision::Operate(11), 0),
            (Decision::Operate(34), 1),
            (Decision::Operate(-1), 0),
        ];
        assert_eq!(decided(&run), wanted);
    }

    #[test]
    fn by_an_adjustment() {
        let run = [
            create(8, 2, OPEN),
            set_value(8, 0, 0, 32_767),
            operate(1, 0, &[(0, -32_767, UNDO)]),
            operate(1, 0, &[(1, 1, 0), (0, -1, UNDO)]),
            operate(2, 0, &[(0, 1, 0)]),
            operate(1, 0, &[(0, -1, UNDO)]),
        ];
        let wanted = [
            (Decision::Operate(-1), 1),
            (Decision::Waking(34), 1),
            (Decision::There, 1),
            (Decision::Adjustment, 1),
            (Decision::Operate(34), 0),
            (Decision::Adjustment, 0),
        ];
        assert_eq!(decided(&run), wanted);
    }
}
