//! Arrays that any of their operations decides: by a look, before, at or behind the operation where
//! the call went to sleep, and then at once.

use second::event::{self, Operation};
use second::{NOWAIT, OPERATIONS, UNDO};

use crate::choice::{self, narrow, MAX};
use crate::random::Rng;
use crate::scene::Scene;

/// The position of the last operation that an array can have.
const LAST: usize = OPERATIONS - 1;

/// A call that sleeps, and the change of a value that ends it.
struct Plan {
    /// What is set first.
    values: Vec<(u16, i32)>,
    /// What the sleeper takes from the semaphore beforehand, with undo.
    taken: i32,
    array: Vec<Operation>,
    /// The semaphore that changes, and its values.
    number: u16,
    from: i32,
    to: i32,
}

/// A sleeper is ended by an operate, an exit, or a setting of one value or all, and calls again.
pub fn deciding(scene: &mut Scene) {
    let target = scene.open_set(3);
    let id = target.identifier;
    let (holder, sleeper) = scene.two_callers();
    let mut numbers: Vec<u16> = (0..target.values.len() as u16).collect();
    scene.rng.shuffle(&mut numbers);
    let Plan { values, taken, array, number, from, to } = plan(&mut scene.rng, &numbers);
    for (number, value) in values {
        scene.push(event::set_value(holder, id, number, value));
    }
    if taken > 0 {
        scene.push(event::operate(sleeper, id, &[(number, narrow(-taken), UNDO)]));
    }
    // The value stays as it is, and would change at the holder's exit.
    let change = narrow(to - from);
    scene.push(event::operate(holder, id, &[(number, change, 0), (number, -change, UNDO)]));
    scene.add(|scene| choice::call(&mut scene.rng, sleeper, id, &array));
    // A setting would clear what the sleeper holds.
    let end = match scene.rng.below(if taken > 0 { 2 } else { 4 }) {
        0 => event::operate(holder, id, &[(number, change, 0)]),
        1 => event::exit(holder),
        2 => scene.setting(id, number, to),
        _ => event::set_value(holder, id, number, to),
    };
    scene.push(end);
    scene.add(|scene| choice::call(&mut scene.rng, sleeper, id, &array));
}

fn plan(rng: &mut Rng, numbers: &[u16]) -> Plan {
    let (a, b, idle) = (numbers[0], numbers[1], (numbers[2], 1, 0));
    let step = rng.between(1, 9);
    // An operation that goes through with the first value and not with the second.
    let (good, bad, fails) = match rng.below(3) {
        0 => (MAX - step, MAX, (a, narrow(step), rng.pick(&[0, UNDO]))),
        1 => (0, step, (a, 0, NOWAIT)),
        _ => (step, 0, (a, narrow(-step), NOWAIT)),
    };
    let waits = (b, -1, 0);
    match rng.below(3) {
        0 => {
            let at = position(rng, 0, LAST - 1);
            // Close behind, so that the array is short.
            let behind = at + 1 + rng.below((LAST - at).min(4));
            let array = placed(idle, &[(at, fails), (behind, waits)]);
            let values = vec![(a, good), (b, 0)];
            Plan { values, taken: 0, array, number: a, from: good, to: bad }
        }
        1 => {
            let at = position(rng, 1, LAST);
            let array = placed(idle, &[(rng.below(at), waits), (at, fails)]);
            let values = vec![(a, bad), (b, 0)];
            Plan { values, taken: 0, array, number: b, from: 0, to: 1 }
        }
        // The sleeper holds all that an adjustment can be, and takes more.
        _ => {
            let array = placed(idle, &[(position(rng, 0, LAST), (a, narrow(-step), UNDO))]);
            Plan { values: vec![(a, MAX)], taken: MAX, array, number: a, from: 0, to: step }
        }
    }
}

/// The operations at their positions, and the idle one wherever there is none before the last.
fn placed(idle: Operation, operations: &[(usize, Operation)]) -> Vec<Operation> {
    let length = operations.last().map_or(0, |(position, _)| position + 1);
    let mut array = vec![idle; length];
    for &(position, operation) in operations {
        array[position] = operation;
    }
    array
}

/// A position from `low` to `high`, more often an edge: of all operations, or of eight, the number
/// of semaphores and of processes.
fn position(rng: &mut Rng, low: usize, high: usize) -> usize {
    match rng.below(5) {
        0 => rng.pick(&[0, 7, 8, LAST]).clamp(low, high),
        _ => low + rng.below(high - low + 1),
    }
}
