//! Follows the events of a file by their lines, to tell how waits ended, and which times were told.

use std::cmp::Ordering;
use std::collections::BTreeSet;

use second::{Event, TIME_MAX};

use crate::line::Line;

/// What is shown beside a code or another number.
#[derive(Clone, Copy, Debug, PartialEq, Eq, PartialOrd, Ord)]
pub enum Wait {
    /// The code of a time, beside the one last told.
    Earlier,
    Same,
    Later,
    /// The code of the largest time, and of one above it.
    Largest,
    Above,
    /// The code of an operate with a wait of so many milliseconds.
    Of(u32),
    /// The code of a waking of one that had a wait, other than by a time.
    Woken,
    /// How many a time ends, and where it ends some: in how many sets, and how many sleep on.
    Ended,
    Sets,
    Staying,
    /// By how much a time is above the end of a sleeper's wait.
    Past,
    /// How many have a wait that is not over at the largest time.
    Never,
    /// Of two that a time ends one after the other: is the end, the slot or the process of the
    /// second below (-1) or above (1) that of the first?
    End,
    Slot,
    Process,
}

/// All of them, with their names and the numbers that have to come.
pub const WAITS: [(Wait, &str, &[i32]); 17] = [
    (Wait::Earlier, "earlier time with", &[22]),
    (Wait::Same, "same time with", &[0]),
    (Wait::Later, "later time with", &[0]),
    (Wait::Largest, "largest time with", &[0]),
    (Wait::Above, "time above it with", &[22]),
    (Wait::Of(0), "wait of 0 with", &[0, 3, 7, 11, 13, 16, 22, 27, 34]),
    (Wait::Of(1), "wait of 1 with", &[-1, 0, 34]),
    (Wait::Of(u32::MAX), "longest wait with", &[-1, 0, 34]),
    (Wait::Woken, "timed, woken with", &[0, 4, 11, 34, 43]),
    (Wait::Ended, "ended by a time", &[0, 1, 2, 3, 4, 5, 6, 7, 8]),
    (Wait::Sets, "ended in so many sets", &[1, 2, 3, 4]),
    (Wait::Staying, "staying where some end", &[0, 1, 2, 3, 4, 5, 6, 7]),
    (Wait::Past, "time above an end", &[-1, 0, 1]),
    (Wait::Never, "not over at the largest", &[1]),
    (Wait::End, "next end", &[-1, 0, 1]),
    (Wait::Slot, "next slot", &[-1, 0, 1]),
    (Wait::Process, "next process", &[-1, 1]),
];

/// One that sleeps.
#[derive(Clone, Copy)]
struct Sleeper {
    process: u8,
    slot: i32,
    /// When its wait is over, if it has one.
    end: Option<u64>,
}

#[derive(Default)]
pub struct Waits {
    /// The time last told.
    time: u64,
    /// In any order.
    sleepers: Vec<Sleeper>,
}

impl Waits {
    /// Follows one event: what it shows.
    pub fn follow(&mut self, event: Event, line: &Line) -> Vec<(Wait, i32)> {
        let code = line.code.number;
        let mut shown = Vec::new();
        match event {
            Event::Clock { time } => return self.told(time, line),
            Event::Operate { process, identifier, wait, .. } => {
                shown.extend(wait.map(|wait| (Wait::Of(wait), code)));
                if code == -1 {
                    let end = wait.map(|wait| self.time + u64::from(wait));
                    self.sleepers.push(Sleeper { process, slot: identifier & 3, end });
                }
            }
            Event::Exit { process } => {
                self.take_out(process);
            }
            _ => {}
        }
        for &(process, code) in &line.wakings {
            let woken = self.take_out(process).filter(|sleeper| sleeper.end.is_some());
            shown.extend(woken.map(|_| (Wait::Woken, code.number)));
        }
        shown
    }

    fn take_out(&mut self, process: u8) -> Option<Sleeper> {
        let place = self.sleepers.iter().position(|sleeper| sleeper.process == process)?;
        Some(self.sleepers.swap_remove(place))
    }

    fn told(&mut self, time: u64, line: &Line) -> Vec<(Wait, i32)> {
        let mut shown = vec![(beside(time, self.time), line.code.number)];
        if time == TIME_MAX {
            shown.push((Wait::Largest, line.code.number));
        }
        if line.code.number != 0 {
            return shown;
        }
        self.time = time;
        let past = |sleeper: &Sleeper| sleeper.end.map(|end| time as i128 - i128::from(end));
        let close = self.sleepers.iter().filter_map(past).filter(|past| past.abs() < 2);
        shown.extend(close.map(|past| (Wait::Past, past as i32)));
        let ended: Vec<Sleeper> =
            line.wakings.iter().filter_map(|&(process, _)| self.take_out(process)).collect();
        shown.push((Wait::Ended, ended.len() as i32));
        if !ended.is_empty() {
            let sets: BTreeSet<i32> = ended.iter().map(|sleeper| sleeper.slot).collect();
            shown.push((Wait::Sets, sets.len() as i32));
            shown.push((Wait::Staying, self.sleepers.len() as i32));
        }
        shown.extend(ended.windows(2).flat_map(|two| next(two[0], two[1])));
        let over = self.sleepers.iter().filter(|sleeper| sleeper.end > Some(TIME_MAX));
        shown.extend((time == TIME_MAX).then(|| (Wait::Never, over.count() as i32)));
        shown
    }
}

/// A time beside the one last told, or above the largest.
fn beside(time: u64, last: u64) -> Wait {
    match time.cmp(&last) {
        _ if time > TIME_MAX => Wait::Above,
        Ordering::Less => Wait::Earlier,
        Ordering::Equal => Wait::Same,
        Ordering::Greater => Wait::Later,
    }
}

/// Of two that a time ends one after the other.
fn next(first: Sleeper, second: Sleeper) -> [(Wait, i32); 3] {
    [
        (Wait::End, second.end.cmp(&first.end) as i32),
        (Wait::Slot, second.slot.cmp(&first.slot) as i32),
        (Wait::Process, second.process.cmp(&first.process) as i32),
    ]
}

#[cfg(test)]
mod tests {
    use super::*;
    use crate::line::followed;
    use crate::scene::OPEN;
    use second::event::{clock, create, exit, operate, remove, set_value, timed_operate, Body};
    use second::run_file;

    /// What the events of a run show, once there are two sets.
    fn shown(bodies: &[Body]) -> Vec<Vec<(Wait, i32)>> {
        let sets = [create(8, 1, OPEN), create(8, 1, OPEN)];
        let mut waits = Waits::default();
        let file = run_file(&[&sets, bodies].concat());
        followed(&file, |event, line| waits.follow(event, line)).split_off(2)
    }

    #[test]
    fn times() {
        let run = [4, 4, 3, TIME_MAX + 1, TIME_MAX, 5].map(clock);
        let ended = (Wait::Ended, 0);
        let wanted = [
            vec![(Wait::Later, 0), ended],
            vec![(Wait::Same, 0), ended],
            vec![(Wait::Earlier, 22)],
            vec![(Wait::Above, 22)],
            vec![(Wait::Later, 0), (Wait::Largest, 0), ended, (Wait::Never, 0)],
            vec![(Wait::Earlier, 22)],
        ];
        assert_eq!(shown(&run), wanted);
    }

    #[test]
    fn ends() {
        let take = [(0, -1, 0)];
        let run = [
            timed_operate(5, 1, 9, &take),
            timed_operate(2, 0, 8, &take),
            operate(3, 0, &take),
            timed_operate(4, 0, 10, &take),
            timed_operate(6, 0, 0, &take),
            clock(9),
        ];
        let wanted = [
            vec![(Wait::Of(9), -1)],
            vec![(Wait::Of(8), -1)],
            vec![],
            vec![(Wait::Of(10), -1)],
            vec![(Wait::Of(0), 11)],
            vec![
                (Wait::Later, 0),
                (Wait::Past, 0),
                (Wait::Past, 1),
                (Wait::Past, -1),
                (Wait::Ended, 2),
                (Wait::Sets, 2),
                (Wait::Staying, 2),
                (Wait::End, -1),
                (Wait::Slot, -1),
                (Wait::Process, -1),
            ],
        ];
        assert_eq!(shown(&run), wanted);
    }

    #[test]
    fn woken_otherwise() {
        let take = [(0, -1, 0)];
        let run = [
            timed_operate(1, 0, 9, &take),
            operate(2, 0, &take),
            timed_operate(3, 0, 9, &take),
            timed_operate(4, 1, 9, &take),
            exit(3),
            set_value(8, 0, 0, 2),
            remove(8, 1),
            clock(9),
        ];
        let wanted = [
            vec![],
            vec![(Wait::Woken, 0)],
            vec![(Wait::Woken, 43)],
            vec![(Wait::Later, 0), (Wait::Ended, 0)],
        ];
        assert_eq!(shown(&run)[4..], wanted);
    }

    #[test]
    fn at_the_largest_time() {
        let take = [(0, -1, 0)];
        let run = [
            clock(TIME_MAX - 1),
            timed_operate(1, 0, 2, &take),
            timed_operate(2, 0, 1, &take),
            operate(3, 0, &take),
            clock(TIME_MAX),
        ];
        assert_eq!(shown(&run)[4].last(), Some(&(Wait::Never, 1)));
    }
}
