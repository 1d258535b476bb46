//! The beginning of a run file that does not begin with a fresh host: events that make the host it
//! goes on from. So each file can be replayed by itself.
//!
//! While it is built every number is user 0, as in a fresh host, and so nothing is refused; only the
//! spare one makes each set as the set's owner. Then each number is told as whom it acts, and those who
//! sleep go to sleep. They are permitted to, as they were before: neither a sleeper's user and group nor
//! a set's owner and mode can have changed since.

use vairolent::{Event, Host, Operation, Semaphore, PROCESSES, SETS};

use crate::caller::Role;
use crate::known::{Known, Live};
use crate::leases::SPARE;
use crate::seen;

/// The host so far, with the body and the line of each event that made it.
pub struct Beginning {
    host: Host,
    known: Known,
    pub events: Vec<(Vec<u8>, String)>,
}

impl Beginning {
    /// The events that make this host, to the last byte; nothing if they would take more than so many
    /// bytes, table included.
    pub fn of(host: &Host, known: &Known, most: usize) -> Option<Beginning> {
        let removals = known.freed.iter().map(|&freed| freed as usize).sum::<usize>();
        // A create and a remove take 19 bytes.
        if 19 * removals > most {
            return None;
        }
        let mut beginning =
            Beginning { host: Host::new(), known: Known::default(), events: Vec::new() };
        beginning.make_sets(host, known);
        for identifier in known.live.iter().flatten().map(|live| live.identifier) {
            beginning.set_values(host, identifier);
            beginning.adjust(host, identifier);
            beginning.operate_last(host, identifier);
        }
        for process in 1..=PROCESSES as u8 {
            beginning.act_as(process, known.role(process));
        }
        beginning.put_to_sleep(known);
        let size: usize = beginning.events.iter().map(|(body, _)| body.len() + 4).sum();
        (beginning.host == *host && size <= most).then(|| beginning)
    }

    fn hand_in(&mut self, event: Event) {
        let told = self.host.run(&event);
        self.known.note(&event, &told);
        let body = event.body().expect("a beginning has short arrays");
        self.events.push((body, event.line(&told)));
    }

    fn act_as(&mut self, process: u8, role: Role) {
        if let Some(event) = self.known.change(process, role) {
            self.hand_in(event);
        }
    }

    /// Every slot is filled, freed as often as it was, and left filled or free. A slot is filled only
    /// where all below it are, so they stay so until the end.
    fn make_sets(&mut self, host: &Host, known: &Known) {
        let used = |slot: &usize| known.live[*slot].is_some() || known.freed[*slot] > 0;
        let used = (0..SETS).filter(used).last().map_or(0, |slot| slot + 1);
        for slot in 0..used {
            let live = known.live[slot];
            let create = create(host, live);
            self.act_as(SPARE, live.map_or(Role::ROOT, |live| live.owner));
            self.hand_in(create);
            for generation in 0..known.freed[slot] as usize - usize::from(live.is_none()) {
                self.hand_in(remove(slot, generation));
                self.hand_in(create);
            }
        }
        self.act_as(SPARE, Role::ROOT);
        for slot in (0..used).filter(|&slot| known.live[slot].is_none()) {
            self.hand_in(remove(slot, known.freed[slot] as usize - 1));
        }
    }

    /// What no done array has named was set, and has no adjustments.
    fn set_values(&mut self, host: &Host, identifier: i32) {
        for (number, semaphore) in semaphores(host, identifier) {
            if semaphore.last == 0 && semaphore.value > 0 {
                let value = semaphore.value.into();
                self.hand_in(Event::SetValue { process: SPARE, identifier, number, value });
            }
        }
    }

    /// Adjustments, by arrays that leave every value at 0.
    fn adjust(&mut self, host: &Host, identifier: i32) {
        for process in 1..=PROCESSES as u8 {
            let adjustments = host.adjustments(process)[identifier as usize % SETS];
            let mut operations = Vec::new();
            for (number, &adjustment) in (0..).zip(&adjustments) {
                let signs: &[i16] = if adjustment == 0 { &[] } else { &[1, -1] };
                for sign in signs {
                    let operation = Operation::new(number, sign * adjustment.abs());
                    let undo = operation.amount == -adjustment;
                    operations.push(if undo { operation.undo() } else { operation });
                }
            }
            self.operate(process, identifier, &operations);
        }
    }

    /// All other values, each by the process that is the last of its semaphore.
    fn operate_last(&mut self, host: &Host, identifier: i32) {
        for process in 1..=PROCESSES as u8 {
            let last = semaphores(host, identifier).filter(|(_, each)| each.last == process);
            let operations: Vec<Operation> =
                last.map(|(number, each)| Operation::new(number, each.value as i16)).collect();
            self.operate(process, identifier, &operations);
        }
    }

    fn operate(&mut self, process: u8, identifier: i32, operations: &[Operation]) {
        if !operations.is_empty() {
            self.hand_in(Event::Operate { process, identifier, wait: None, operations });
        }
    }

    /// The sleepers as they came, each at its start.
    fn put_to_sleep(&mut self, known: &Known) {
        let mut told = 0;
        let starts = known.asleep.iter().map(|asleep| (asleep.start, Some(asleep)));
        for (time, asleep) in starts.chain([(known.time, None)]) {
            if time > told {
                self.hand_in(Event::Clock { time });
                told = time;
            }
            if let Some(asleep) = asleep {
                self.hand_in(Event::Operate {
                    process: asleep.process,
                    identifier: asleep.identifier,
                    wait: asleep.wait,
                    operations: &asleep.operations,
                });
            }
        }
    }
}

/// Makes a set like this one, or any where the slot is free in the end.
fn create(host: &Host, live: Option<Live>) -> Event<'static> {
    let count = live.map_or(1, |live| semaphores(host, live.identifier).count() as u8);
    let mode = live.map_or(0, |live| live.mode);
    Event::Create { process: SPARE, count, mode }
}

/// Removes the set of a slot that was freed so often; generations go round at 65,536.
fn remove(slot: usize, generation: usize) -> Event<'static> {
    let identifier = (slot + SETS * (generation % 65_536)) as i32;
    Event::Remove { process: SPARE, identifier }
}

fn semaphores(host: &Host, identifier: i32) -> impl Iterator<Item = (u16, Semaphore)> {
    (0..).zip(seen::set(host, identifier).semaphores().to_vec())
}

#[cfg(test)]
mod tests {
    use super::*;

    struct Random(u64);

    impl Random {
        fn below(&mut self, bound: u64) -> u64 {
            self.0 = self.0.wrapping_mul(6_364_136_223_846_793_005).wrapping_add(1_442_695);
            (self.0 >> 33) % bound
        }

        fn operation(&mut self) -> Operation {
            let amount = [-1, -1, 0, 1, 1, 3, -3, 16_000, -16_000][self.below(9) as usize];
            let operation = Operation::new(self.below(3) as u16, amount);
            if self.below(2) == 0 {
                operation.undo()
            } else {
                operation
            }
        }
    }

    /// An event of any kind, some of them refused. The spare number never sleeps.
    fn hand_in(random: &mut Random, host: &mut Host, known: &mut Known) {
        let operations = [random.operation(), random.operation()];
        let (process, identifier) = (random.below(9) as u8, random.below(12) as i32);
        let waits = [None, Some(5), Some(0)];
        let wait = waits[if process == SPARE { 2 } else { random.below(2) as usize }];
        let [user, group] = [(); 2].map(|()| [0, 0, 1, 2][random.below(4) as usize]);
        let mode = [0o600, 0o660, 0o466, 0o777, 0o1000][random.below(5) as usize];
        let event = match random.below(28) {
            0 | 1 => Event::Create { process, count: random.below(4) as u8, mode },
            2 => {
                let value = random.below(40_000) as i32;
                Event::SetValue { process, identifier, number: 1, value }
            }
            3 => Event::Remove { process, identifier },
            4 => Event::Signal { process },
            5 => Event::Exit { process },
            6 => Event::Clock { time: known.time + random.below(4) },
            7 => Event::SetAll { process, identifier, values: &[4, 0, 1] },
            8 | 9 => Event::ActAs { process, user, group },
            _ => Event::Operate { process, identifier, wait, operations: &operations },
        };
        let told = host.run(&event);
        known.note(&event, &told);
    }

    /// Nothing is given where another host would be made.
    #[test]
    fn every_host_has_a_beginning() {
        let (mut random, mut asleep, mut others, mut owned, mut adjusted) = (Random(7), 0, 0, 0, 0);
        for _ in 0..60 {
            let (mut host, mut known) = (Host::new(), Known::default());
            for _ in 0..150 {
                hand_in(&mut random, &mut host, &mut known);
                let beginning = Beginning::of(&host, &known, 32_768).expect("a short one");
                assert!(!beginning.events.is_empty() || host == Host::new());
                let sleepers = known.asleep.iter().map(|asleep| known.role(asleep.process));
                asleep += known.asleep.len();
                others += sleepers.filter(|role| role.user != 0).count();
                owned += known.live.iter().flatten().filter(|live| live.owner.user != 0).count();
                adjusted += usize::from(host.adjustments(1) != [[0; 8]; 4]);
            }
        }
        assert!(asleep > 1_000 && others > 500, "{asleep} asleep, {others} of them not as user 0");
        assert!(owned > 1_000 && adjusted > 500, "{owned} sets of others, {adjusted} adjusted");
    }

    #[test]
    fn one_that_would_be_too_long_is_none() {
        let (mut host, mut known) = (Host::new(), Known::default());
        for generation in 0..100 {
            for event in [create(&host, None), remove(0, generation)] {
                let told = host.run(&event);
                known.note(&event, &told);
            }
        }
        assert!(Beginning::of(&host, &known, 1_900).is_some());
        assert!(Beginning::of(&host, &known, 1_899).is_none());
    }
}
