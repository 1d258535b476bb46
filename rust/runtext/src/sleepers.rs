//! The calls that processes sleep on, and the time, as the answers tell.

use std::collections::BTreeMap;

use crate::answer::{Answer, Waking};
use crate::event::Event;
use crate::operation::{added, Operation};

/// The array of a call, and the set that it is for.
#[derive(Clone, Copy, Debug, PartialEq, Eq)]
pub struct Call<'a> {
    pub identifier: i32,
    pub operations: &'a [Operation],
    /// The time at which it went to sleep, and how long it may wait, if not for ever.
    pub start: u64,
    pub wait: Option<u32>,
}

#[derive(Default)]
pub struct Sleepers<'a> {
    /// By process the call that it sleeps on.
    calls: BTreeMap<u8, Call<'a>>,
    /// The time told last; a refused one isn't told.
    pub time: u64,
}

impl<'a> Sleepers<'a> {
    /// Keeps the call of an operate that is answered with sleep until a waking or an exit ends it,
    /// and the time that is accepted.
    pub fn note(&mut self, event: &'a Event, answer: &Answer) {
        if let Answer::Report { wakings, .. } = answer {
            for waking in wakings {
                self.calls.remove(&waking.process);
            }
        }
        match (event, answer.code()) {
            (Event::Operate { process, identifier, wait, operations }, -1) => {
                let (identifier, wait) = (*identifier, *wait);
                let call = Call { identifier, operations, start: self.time, wait };
                self.calls.insert(*process, call);
            }
            (Event::Exit { process }, 0) => {
                self.calls.remove(process);
            }
            (Event::Clock { time }, 0) => self.time = *time,
            _ => {}
        }
    }

    pub fn call(&self, process: u8) -> Option<Call<'a>> {
        self.calls.get(&process).copied()
    }

    /// What those of the wakings that are done add to a semaphore of a set together. The array of
    /// each is applied, which adds its amounts.
    pub fn applied(&self, wakings: &[Waking], identifier: i32, number: u16) -> Option<i32> {
        let mut sum = 0;
        for waking in wakings.iter().filter(|waking| waking.code == 0) {
            let call = self.call(waking.process)?;
            if call.identifier == identifier {
                sum += added(call.operations, number);
            }
        }
        Some(sum)
    }
}

#[cfg(test)]
mod tests {
    use super::*;
    use crate::parse;

    fn events(text: &str) -> Vec<Event> {
        parse::events(text.as_bytes()).expect("events")
    }

    fn asleep(events: &[Event], codes: [i32; 4]) -> Sleepers<'_> {
        let mut sleepers = Sleepers::default();
        for (event, code) in events.iter().zip(codes) {
            let answer =
                Answer::Report { code, position: None, value: 0, looks: 0, wakings: vec![] };
            sleepers.note(event, &answer);
        }
        sleepers
    }

    #[test]
    fn a_call_is_kept_while_it_sleeps() {
        let events = events(
            "operate 1 set=0 0:-1\nexit 1\noperate 1 set=4 0:-2 1:0\noperate 1 set=4 0:-3\n",
        );
        let mut sleepers = asleep(&events, [-1, 0, -1, 16]);
        let call = sleepers.call(1).expect("it sleeps");
        assert_eq!((call.identifier, call.operations.len()), (4, 2));
        assert_eq!(sleepers.call(2), None);
        assert_eq!(asleep(&events[..2], [-1, 0, 0, 0]).call(1), None);
        let woken = Answer::read(&events[1], "0 0 1 1=0").expect("a line");
        sleepers.note(&events[1], &woken);
        assert_eq!(sleepers.call(1), None);
    }

    /// A time that is refused is not told.
    #[test]
    fn a_call_begins_at_the_time_told_last() {
        let events =
            events("operate 1 set=0 wait=250 0:-1\ntime 100\ntime 99\noperate 2 set=0 0:-1\n");
        let sleepers = asleep(&events, [-1, 0, 22, -1]);
        let begun = |process| sleepers.call(process).map(|call| (call.start, call.wait));
        assert_eq!(begun(1), Some((0, Some(250))));
        assert_eq!(begun(2), Some((100, None)));
    }

    /// Process 3 sleeps on another set, and 4 is ended without being applied.
    #[test]
    fn done_arrays_of_the_set_are_added() {
        let events = events(
            "operate 1 set=0 0:-1 1:+5\noperate 2 set=0 0:-2 0:+4\n\
            operate 3 set=1 0:+100\noperate 4 set=0 0:+1000",
        );
        let sleepers = asleep(&events, [-1; 4]);
        let waking = |process, code| Waking { process, code, position: None };
        let wakings = [waking(1, 0), waking(3, 0), waking(4, 34), waking(2, 0)];
        assert_eq!(sleepers.applied(&wakings, 0, 0), Some(1));
        assert_eq!(sleepers.applied(&wakings, 0, 1), Some(5));
        assert_eq!(sleepers.applied(&wakings, 1, 0), Some(100));
        assert_eq!(sleepers.applied(&wakings[..1], 0, 0), Some(-1));
        assert_eq!(sleepers.applied(&[], 0, 0), Some(0));
        assert_eq!(sleepers.applied(&[waking(5, 0)], 0, 0), None);
    }
}
