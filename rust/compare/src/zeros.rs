//! Follows the events of a file by their lines, to tell which queries show that amounts of 0 set
//! the last process too.

use second::event::OPERATION;
use second::Event;

use crate::line::Line;

/// When an array was done.
#[derive(Clone, Copy, Debug, Default, PartialEq, Eq, PartialOrd, Ord)]
pub enum When {
    #[default]
    AtOnce,
    AtWaking,
}

/// All of them, with their names.
pub const WHENS: [(When, &str); 2] = [(When::AtOnce, "at once"), (When::AtWaking, "at waking")];

/// By slot and number.
type Each<T> = [[T; 8]; 4];

#[derive(Default)]
pub struct Zeros<'a> {
    /// The slot and the operations of each process's last call.
    calls: [(usize, &'a [u8]); 9],
    /// The last processes if amounts of 0 set none, and when an array last named the semaphore.
    without: Each<u8>,
    named: Each<When>,
}

fn slot_of(identifier: i32) -> usize {
    identifier as usize % 4
}

impl<'a> Zeros<'a> {
    /// Follows one event. For a query that shows a last process set by an amount of 0: when it was.
    pub fn follow(&mut self, event: Event<'a>, line: &Line) -> Option<When> {
        match (event, line.code.number, &line.numbers[..]) {
            (Event::Create { .. }, 0, [identifier, ..]) => {
                self.without[slot_of(*identifier)] = [0; 8];
            }
            (Event::Operate { process, identifier, operations, .. }, code @ -1..=0, _) => {
                self.calls[usize::from(process)] = (slot_of(identifier), operations);
                if code == 0 {
                    self.done(process, When::AtOnce);
                }
            }
            (Event::Query { identifier, number, .. }, 0, [_, last, ..]) => {
                let (slot, number) = (slot_of(identifier), usize::from(number));
                let shows = *last != i32::from(self.without[slot][number]);
                return shows.then_some(self.named[slot][number]);
            }
            _ => {}
        }
        for (process, _) in line.wakings.iter().filter(|(_, code)| code.number == 0) {
            self.done(*process, When::AtWaking);
        }
        None
    }

    /// The array of a process's last call is done.
    fn done(&mut self, process: u8, when: When) {
        let (slot, operations) = self.calls[usize::from(process)];
        for operation in operations.chunks_exact(OPERATION) {
            let number = usize::from(operation[0]);
            self.named[slot][number] = when;
            if operation[2..4] != [0, 0] {
                self.without[slot][number] = process;
            }
        }
    }
}

#[cfg(test)]
mod tests {
    use super::*;
    use crate::line::followed;
    use crate::scene::OPEN;
    use second::event::{create, operate, query, remove, set_value, Body};
    use second::{run_file, NOWAIT};

    /// What the queries of a run show.
    fn shown(bodies: &[Body]) -> Vec<Option<When>> {
        let mut zeros = Zeros::default();
        let follow = |event, line: &Line| {
            let when = zeros.follow(event, line);
            matches!(event, Event::Query { .. }).then_some(when)
        };
        followed(&run_file(bodies), follow).into_iter().flatten().collect()
    }

    #[test]
    fn at_once() {
        let run = [
            create(8, 2, OPEN),
            operate(4, 0, &[(0, 0, 0), (1, 1, 0)]),
            query(8, 0, 0),
            query(8, 0, 1),
            // Refused: it sets no last process.
            operate(5, 0, &[(1, -2, NOWAIT)]),
            query(8, 0, 1),
            // The same process: the line is the same without it.
            operate(4, 0, &[(0, 1, 0), (0, -1, 0), (0, 0, 0)]),
            query(8, 0, 0),
        ];
        assert_eq!(shown(&run), [Some(When::AtOnce), None, None, None]);
    }

    #[test]
    fn at_waking() {
        let run = [
            create(8, 2, OPEN),
            set_value(8, 0, 0, 1),
            operate(2, 0, &[(1, 0, 0), (0, 0, 0)]),
            query(8, 0, 0),
            operate(3, 0, &[(0, -1, 0)]),
            query(8, 0, 0),
            query(8, 0, 1),
        ];
        assert_eq!(shown(&run), [None, Some(When::AtWaking), Some(When::AtWaking)]);
    }

    #[test]
    fn each_set_by_itself() {
        let run = [
            create(8, 1, OPEN),
            create(8, 1, OPEN),
            operate(4, 1, &[(0, 0, 0)]),
            query(8, 0, 0),
            query(8, 1, 0),
        ];
        assert_eq!(shown(&run), [None, Some(When::AtOnce)]);
    }

    #[test]
    fn a_new_set_has_no_last_process() {
        let run = [
            create(8, 1, OPEN),
            operate(4, 0, &[(0, 1, 0)]),
            remove(8, 0),
            create(8, 1, OPEN),
            query(8, 4, 0),
            operate(4, 4, &[(0, 0, 0)]),
            query(8, 4, 0),
        ];
        assert_eq!(shown(&run), [None, Some(When::AtOnce)]);
    }
}
