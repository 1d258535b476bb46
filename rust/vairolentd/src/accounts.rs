//! The account of a process: all its undo adjustments. Threads that sleep at once have a number each,
//! and so the account is in parts while they sleep. It is brought together as soon as they are awake.

use vairolent::{Event, Operation, Told, SEMAPHORES, SETS};

use crate::caller::{ProcessId, Role};
use crate::daemon::Daemon;
use crate::seen;

impl Daemon {
    /// Leaves the process one number of those that are awake, with the adjustments of all of them. So
    /// what one thread takes and another gives back comes to nothing, and all is undone at once when
    /// the process ends.
    pub fn unite(&mut self, process: ProcessId) {
        let awake = self.leases.of(process).filter(|&number| !self.is_asleep(number));
        let awake: Vec<u8> = awake.collect();
        if let [first, others @ ..] = &awake[..] {
            for &number in others {
                self.bring_together(number, *first);
                self.keep_or_release(number, process);
            }
            self.keep_or_release(*first, process);
        }
    }

    /// Moves the adjustments of one number to another, by arrays that leave every value as it is. A set
    /// whose sums would leave the range keeps them apart.
    fn bring_together(&mut self, from: u8, to: u8) {
        for identifier in self.sets.iter().map(|set| set.identifier).collect::<Vec<i32>>() {
            let adjustments = self.engine.host().adjustments(from)[identifier as usize % SETS];
            if adjustments == [0; SEMAPHORES] {
                continue;
            }
            let mut values = [0; SEMAPHORES];
            let set = seen::set(self.engine.host(), identifier);
            values.iter_mut().zip(set.semaphores()).for_each(|(to, from)| *to = from.value);
            if self.shift(to, identifier, &shifting(&adjustments, &values, 1)) {
                self.shift(from, identifier, &shifting(&adjustments, &values, -1));
            }
        }
    }

    /// Is it done? The number is awake, the set is live, and user 0 may alter whatever its mode is, so
    /// that only a sum out of range can be refused. The next call by the number tells its own user.
    fn shift(&mut self, process: u8, identifier: i32, operations: &[Operation]) -> bool {
        self.engine.act_as(process, Role::ROOT);
        let event = Event::Operate { process, identifier, wait: Some(0), operations };
        matches!(self.engine.run(&event), Told::Done(_))
    }
}

/// Operations that leave these values as they are, and add so many times these adjustments to those
/// of the process, in halves that a value has room for or can spare.
fn shifting(adjustments: &[i16], values: &[u16], times: i16) -> Vec<Operation> {
    let mut operations = Vec::new();
    for (number, (&adjustment, &value)) in (0..).zip(adjustments.iter().zip(values)) {
        for half in [adjustment / 2, adjustment - adjustment / 2] {
            let noted = Operation::new(number, -times * half).undo();
            let back = Operation::new(number, times * half);
            let (add, take) = if noted.amount > 0 { (noted, back) } else { (back, noted) };
            if half != 0 && value >= half.unsigned_abs() {
                operations.extend([take, add]);
            } else if half != 0 {
                operations.extend([add, take]);
            }
        }
    }
    operations
}

#[cfg(test)]
mod tests {
    use super::*;
    use crate::trial::*;
    use vairolent::{Answer, Host};

    /// A value at every edge takes every adjustment, there and back.
    #[test]
    fn adjustments_are_shifted_and_values_stay() {
        for adjustment in [-32_767, -32_766, -1, 0, 1, 16_384, 32_766, 32_767] {
            for value in [0, 1, 16_383, 16_384, 32_766, 32_767] {
                let (adjustments, values) = ([adjustment; 8], [value; 8]);
                let mut host = Host::new();
                let set = host.create(1, 8, 0o600).expect("made");
                let _ = host.set_all(1, set, &values.map(i32::from)).expect("set");
                for (times, wanted) in [(1, adjustment), (-1, 0)] {
                    let operations = shifting(&adjustments, &values, times);
                    assert!(operations.len() <= 32);
                    let answer = host.operate_within(1, set, &operations, 0);
                    assert!(operations.is_empty() || matches!(answer, Ok(Answer::Done(_))));
                    let shown = host.query_set(1, set).expect("shown");
                    assert!(shown.semaphores().iter().map(|each| each.value).eq(values));
                    assert_eq!(host.adjustments(1)[0], [wanted; 8]);
                }
            }
        }
    }

    /// Its parts are at numbers that may not alter the set any more: one thread of the process has
    /// called as another user. The whole account is given back at the end all the same, and nobody is
    /// let in by how it was done.
    #[test]
    fn an_account_is_brought_together_whoever_called_last() {
        let mut trial = Trial::new();
        let [before, after] = [caller(1, 7, &[9]), caller(1, 8, &[8])];
        let giver = caller(2, 7, &[9]);
        let set = trial.make(&before, 0o600);
        let give = |number, amount| Operation::new(number, amount).undo();
        let sleeps = [Operation::new(1, -1), give(0, 2)];
        assert_eq!(trial.operate(&before, set, &sleeps), None);
        assert_eq!(trial.operate(&before, set, &[give(0, 3)]), Some(0));
        assert_eq!(trial.control(&after, set, GET_VALUE).0, 13);
        assert_eq!(trial.operate(&giver, set, &[Operation::new(1, 1)]), Some(0));
        assert_eq!(trial.daemon.leases.of(before.process).count(), 1, "it is at one number");
        for number in 1..=8 {
            let held = trial.daemon.engine.host().adjustments(number)[0][0];
            assert!(held == 0 || held == -5, "{held}");
        }
        assert_eq!(trial.control(&after, set, GET_VALUE).0, 13);
        assert_eq!(trial.control(&after, set, REMOVE).0, 1);
        assert_eq!(trial.control(&before, set, GET_VALUE), (0, 5));
        trial.daemon.exit(before.process);
        assert_eq!(trial.control(&giver, set, GET_VALUE), (0, 0));
    }
}
