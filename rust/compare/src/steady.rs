//! Scenes that stay as they are: processes asleep, and the same event again and again. No seed
//! draws them; they are for the benchmark.

use second::event::{self, Operation};
use second::UNDO;

use crate::kind::Kind;
use crate::kind::Make::Script;
use crate::scene::Scene;

pub static STEADY: [Kind; 5] = [
    Kind::new(
        "counts",
        Script(counts),
        "queries alone, with seven asleep on eight operations each",
    ),
    Kind::new(
        "settings",
        Script(settings),
        "set value alone, looking at seven asleep and waking nobody",
    ),
    Kind::new(
        "readings",
        Script(readings),
        "readings of a set alone, with seven asleep on eight operations each",
    ),
    Kind::new(
        "starts",
        Script(starts),
        "settings of all values, with seven asleep of which some wake",
    ),
    Kind::new("ticks", Script(ticks), "times, with seven asleep on waits of which some end"),
];

/// The longest wait of `ticks`.
const LONGEST: i32 = 16;

/// The most that `settings` and `starts` set semaphore 0 to.
const MOST: i32 = 4;

/// The process that stays awake and asks.
const AWAKE: u8 = 8;

/// A query judges all seven arrays to the end, and counts one.
fn counts(scene: &mut Scene) {
    let id = seven_asleep(scene);
    let number = scene.rng.between(1, 7) as u16;
    scene.push(event::query(AWAKE, id, number));
}

/// A reading judges all seven arrays to the end, and counts one at each semaphore but the first.
fn readings(scene: &mut Scene) {
    let id = seven_asleep(scene);
    scene.push(event::read_all(AWAKE, id));
}

/// Every array names all eight semaphores and stops at its last operation, at the semaphore of its
/// process.
fn seven_asleep(scene: &mut Scene) -> i32 {
    let id = scene.open_set(8).identifier;
    for process in sleepers(scene) {
        let mut array: Vec<Operation> = Vec::new();
        for step in 1..8 {
            array.push(((u16::from(process) + step) % 8, 1, scene.rng.pick(&[0, UNDO])));
        }
        array.push((process.into(), -1, 0));
        scene.push(event::operate(process, id, &array));
    }
    id
}

/// Those that are to sleep and do not.
fn sleepers(scene: &Scene) -> impl Iterator<Item = u8> {
    scene.awake().into_iter().filter(|&process| process != AWAKE)
}

/// Every array ends by taking more from semaphore 0 than it is ever set to.
fn settings(scene: &mut Scene) {
    let id = scene.open_set(8).identifier;
    for process in sleepers(scene) {
        let mut array: Vec<Operation> = Vec::new();
        for _ in 0..3 {
            array.push((scene.rng.between(1, 7) as u16, 1, scene.rng.pick(&[0, UNDO])));
        }
        array.push((0, -1 - MOST as i16, 0));
        scene.push(event::operate(process, id, &array));
    }
    let value = scene.rng.between(0, MOST);
    scene.push(event::set_value(AWAKE, id, 0, value));
}

/// Every array ends by taking from the semaphore of its process. One setting in three puts one of
/// these to 1; who is woken calls again before the next.
fn starts(scene: &mut Scene) {
    let id = scene.open_set(8).identifier;
    for process in sleepers(scene) {
        let mut array: Vec<Operation> = vec![(0, 1, scene.rng.pick(&[0, UNDO])); 3];
        array.push((process.into(), -1, 0));
        scene.push(event::operate(process, id, &array));
    }
    let mut values = [0; 8];
    if scene.rng.once_in(3) {
        values[1 + scene.rng.below(7)] = 1;
    }
    values[0] = scene.rng.between(0, MOST);
    scene.push(event::set_all(AWAKE, id, &values));
}

/// Each time is a millisecond later. Who is ended calls again before the next.
fn ticks(scene: &mut Scene) {
    let id = scene.open_set(8).identifier;
    for process in sleepers(scene) {
        let wait = scene.rng.between(1, LONGEST) as u32;
        scene.push(event::timed_operate(process, id, wait, &[(process.into(), -1, 0)]));
    }
    let next = scene.time() + 1;
    scene.push(event::clock(next));
}

#[cfg(test)]
mod tests {
    use super::*;
    use crate::random::Rng;
    use second::{Answer, Event, Host, Report, Rule, State, FILE_MAX};

    /// The answers of a full file, behind the create and the operates that sleep.
    fn answers(play: fn(&mut Scene), rule: Rule, asleep: usize) -> Vec<Answer> {
        let bodies = Scene::played(play, Rng::new(3, 0), FILE_MAX);
        let mut host = Host::new(rule);
        let answer = |body: &Vec<u8>| host.handle(&Event::decode(body).expect("a good body"));
        let mut answers: Vec<Answer> = bodies.iter().map(answer).collect();
        assert!(answers[1..=asleep].iter().all(|answer| answer.code() == -1));
        answers.split_off(asleep + 1)
    }

    #[test]
    fn a_query_counts_one_of_seven() {
        let counts_one = |answer: &Answer| match answer {
            Answer::Query(State { code: 0, for_increase, for_zero: 0, .. }) => {
                for_increase.count_ones() == 1
            }
            _ => false,
        };
        assert!(answers(counts, Rule::Quick, 7).iter().all(counts_one));
    }

    #[test]
    fn a_reading_counts_one_at_each_of_seven() {
        let one = |state: State| state.for_increase.count_ones() == 1 && state.for_zero == 0;
        let counts_one = |answer: &Answer| match answer {
            Answer::Reading(reading) => reading.count == 8 && reading.states().skip(1).all(one),
            _ => false,
        };
        assert!(answers(readings, Rule::Quick, 7).iter().all(counts_one));
    }

    /// Who wakes changes semaphore 0, which all name: the six others are looked at once more.
    #[test]
    fn a_start_looks_at_seven_and_wakes_one_at_most() {
        for rule in [Rule::Quick, Rule::Plain] {
            let mut woken = [0; 2];
            for answer in answers(starts, rule, 7) {
                match answer {
                    Answer::Event(Report { code: 0, looks: 7..=13, wakings, .. }) => {
                        woken[wakings.as_slice().len()] += 1;
                    }
                    _ => assert_eq!(answer.code(), -1),
                }
            }
            assert!(woken[0] > 500 && woken[1] > 250, "{woken:?}");
        }
    }

    #[test]
    fn a_tick_looks_at_nobody_and_ends_some() {
        let mut ended = [0; 9];
        for answer in answers(ticks, Rule::Quick, 7) {
            match answer {
                Answer::Event(Report { code: 0, looks: 0, wakings, .. }) => {
                    ended[wakings.as_slice().len()] += 1;
                }
                _ => assert_eq!(answer.code(), -1),
            }
        }
        assert!(ended[0] > 500 && ended[1] > 500 && ended[2] > 100, "{ended:?}");
    }

    #[test]
    fn a_setting_looks_at_seven_and_wakes_nobody() {
        let looks_at_seven = |answer: &Answer| match answer {
            Answer::Event(Report { code: 0, looks: 7, wakings, .. }) => {
                wakings.as_slice().is_empty()
            }
            _ => false,
        };
        for rule in [Rule::Quick, Rule::Plain] {
            assert!(answers(settings, rule, 7).iter().all(looks_at_seven));
        }
    }
}
