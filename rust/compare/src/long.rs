//! Arrays of twenty to thirty-two operations: done at once, asleep, woken, and decided anywhere.

use second::event::{Body, Operation};
use second::{NOWAIT, OPERATIONS, UNDO};

use crate::choice::{self, narrow, MAX};
use crate::random::Rng;
use crate::scene::{wakings, Scene};

/// The fewest operations of an array.
const FEW: usize = 20;
/// No step adds or takes more than this.
const STEP: i32 = 3;

/// A long call or two, then what may wake a sleeper, and now and then what shows the state.
pub fn long(scene: &mut Scene) {
    for _ in 0..scene.rng.between(1, 2) {
        scene.add(operate);
    }
    scene.seek(|answer| !wakings(answer).is_empty(), stir);
    if scene.rng.once_in(3) {
        scene.add(choice::ask);
    }
}

/// An event that may well wake somebody.
fn stir(scene: &mut Scene) -> Body {
    match scene.rng.below(8) {
        0 => choice::set_value(scene),
        1 => choice::exit(scene),
        2 => choice::signal(scene),
        3 => choice::set_all(scene),
        4 => choice::clock(scene),
        _ => operate(scene),
    }
}

/// A long array: all of it goes through, or one of its operations decides.
fn operate(scene: &mut Scene) -> Body {
    let target = scene.open_set(4);
    let caller = scene.caller();
    let rng = &mut scene.rng;
    let length = match rng.below(4) {
        0 => OPERATIONS,
        _ => FEW + rng.below(OPERATIONS - FEW + 1),
    };
    let decides = match rng.below(4) {
        0 => rng.below(length),
        1 => length - 1,
        _ => length,
    };
    let mut values = target.values;
    let array: Vec<Operation> = (0..length)
        .map(|at| if at == decides { decider(rng, &values) } else { step(rng, &mut values) })
        .collect();
    choice::call(rng, caller, target.identifier, &array)
}

/// An operation that goes through on the values, which it changes.
fn step(rng: &mut Rng, values: &mut [i32]) -> Operation {
    let number = rng.below(values.len());
    let value = values[number];
    let amount = rng.between(-STEP.min(value), STEP.min(MAX - value));
    let amount = if amount == 0 && value > 0 { -1 } else { amount };
    values[number] += amount;
    (number as u16, narrow(amount), rng.pick(&[0, 0, 0, UNDO]))
}

/// An operation that stops on the values, or takes one over its limit.
fn decider(rng: &mut Rng, values: &[i32]) -> Operation {
    let number = rng.below(values.len());
    let value = values[number];
    let amount = match rng.below(6) {
        0 => MAX - value + 1,
        1 if value > 0 => 0,
        _ => -value - rng.between(1, STEP),
    };
    (number as u16, narrow(amount), rng.pick(&[0, 0, 0, UNDO, NOWAIT]))
}

#[cfg(test)]
mod tests {
    use super::*;
    use second::event::OPERATION;
    use second::{Answer, Event, Host, Report, Rule, FILE_MAX};

    /// Every array is as long as said, all lengths come, and many are done, sleep and are woken.
    #[test]
    fn arrays_are_long() {
        let bodies = Scene::played(long, Rng::new(3, 0), FILE_MAX);
        let mut host = Host::new(Rule::Quick);
        let (mut lengths, mut done, mut asleep, mut woken) = (vec![0; OPERATIONS + 1], 0, 0, 0);
        for body in &bodies {
            let event = Event::decode(body).expect("a good body");
            let answer = host.handle(&event);
            if let Event::Operate { operations, .. } = event {
                lengths[operations.len() / OPERATION] += 1;
                done += i32::from(answer.code() == 0);
                asleep += i32::from(answer.code() == -1);
            }
            if let Answer::Event(Report { wakings, .. }) = &answer {
                woken += wakings.as_slice().len();
            }
        }
        assert!(lengths[..FEW].iter().all(|&count| count == 0));
        assert!(lengths[FEW..].iter().all(|&count| count > 0));
        assert!(done > 50 && asleep > 50 && woken > 50, "{done} {asleep} {woken}");
    }
}
