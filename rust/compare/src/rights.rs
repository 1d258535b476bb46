//! Who may do what, in full: every class with every setting of its bits, numbers that are another in
//! one byte, and every two mistakes.

use second::event::{self, Body, Operation};

/// Owner and owning group of the sets here, and the number of somebody else.
const OWNER: u32 = 7;
const GROUP: u32 = 9;
const STRANGER: u32 = 5;

/// The process that owns the sets, and the one that asks.
const CREATOR: u8 = 1;
const CALLER: u8 = 2;

/// Somebody of each class, with each setting of its three bits, asks for everything. The other
/// classes have the other bits.
pub fn classes() -> Vec<Body> {
    // The numbers of the caller, and the place of its bits.
    let classes =
        [(OWNER, STRANGER, 6), (STRANGER, GROUP, 3), (STRANGER, STRANGER, 0), (0, STRANGER, 0)];
    let mut bodies = vec![event::act_as(CREATOR, OWNER, GROUP)];
    let mut id = 0;
    for (user, group, place) in classes {
        bodies.push(event::act_as(CALLER, user, group));
        for bits in 0..8 {
            let mode = ((7 - bits) * 0o111) & !(7 << place) | bits << place;
            bodies.push(event::create(CREATOR, 2, mode));
            bodies.extend(questions(id));
            bodies.extend([event::remove(CALLER, id), event::remove(CREATOR, id)]);
            id += 4;
        }
    }
    bodies
}

/// All that the caller can ask of a new set of two, but for its removal.
fn questions(id: i32) -> Vec<Body> {
    let arrays: [&[Operation]; 3] = [&[(1, 0, 0)], &[(0, 1, 0)], &[(0, 1, 0), (1, 0, 0)]];
    let mut bodies = vec![event::query(CALLER, id, 0), event::read_all(CALLER, id)];
    bodies.extend(arrays.map(|array| event::operate(CALLER, id, array)));
    bodies.extend(arrays.map(|array| event::timed_operate(CALLER, id, 1, array)));
    bodies.push(event::set_value(CALLER, id, 0, 1));
    bodies.push(event::set_all(CALLER, id, &[1, 0]));
    bodies
}

/// Somebody who is owner or owning group but for one byte.
pub fn alike() -> Vec<Body> {
    let mut bodies = vec![event::act_as(CREATOR, OWNER, GROUP), event::create(CREATOR, 1, 0o660)];
    for byte in 0..4 {
        let other = 1 << (8 * byte);
        for (user, group) in [(OWNER ^ other, STRANGER), (STRANGER, GROUP ^ other)] {
            bodies.push(event::act_as(CALLER, user, group));
            bodies.extend([event::query(CALLER, 0, 0), event::set_value(CALLER, 0, 0, 1)]);
        }
    }
    bodies
}

/// Every two mistakes by nobody, by a process asleep and by one that is denied; then those that are
/// left for the owner.
pub fn mistakes() -> Vec<Body> {
    let (nobody, asleep) = (9, 3);
    let mut bodies = vec![event::act_as(CREATOR, OWNER, GROUP)];
    bodies.extend([0o600, 0o600, 0o600, 0o666].map(|mode| event::create(CREATOR, 2, mode)));
    bodies.extend([asleep, CALLER].map(|process| event::act_as(process, STRANGER, STRANGER)));
    bodies.push(event::operate(asleep, 3, &[(0, -1, 0)]));
    bodies.extend([nobody, asleep, CALLER, CREATOR].iter().flat_map(|&process| calls(process)));
    bodies
}

/// Calls on a set of two that is open to its owner alone, and on one that is gone from its slot.
fn calls(process: u8) -> Vec<Body> {
    let modes = [(0, 0o666), (1, 0o1000), (1, 0o666)];
    let mut bodies = modes.map(|(count, mode)| event::create(process, count, mode)).to_vec();
    let (good, bad) = ([(0, 1, 0); 33], [(2, 0, 0); 33]);
    let values: [&[i32]; 4] = [&[0, 0], &[0], &[0, -1], &[-1]];
    for id in [4, 0] {
        for array in [&good[..0], &good[..1], &good, &bad[..1], &bad] {
            bodies.push(event::operate(process, id, array));
            bodies.push(event::timed_operate(process, id, 0, array));
        }
        for number in [0, 2] {
            bodies.push(event::query(process, id, number));
            bodies.extend([0, 40_000].map(|value| event::set_value(process, id, number, value)));
        }
        bodies.extend(values.map(|values| event::set_all(process, id, values)));
        bodies.extend([event::read_all(process, id), event::remove(process, id)]);
    }
    bodies
}
