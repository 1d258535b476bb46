//! Events that are refused, and events by those who can't call.

use second::event::{self, Body};
use second::OPERATIONS;

use crate::choice::{
    self, amount, call, flags, narrow, number, operation, operations, values, MAX,
};
use crate::events::by;
use crate::random::Rng;
use crate::scene::{Scene, Target};
use crate::{times, users};

/// Out of the range of values: by one mostly, and where sixteen bits are not enough.
const NO_VALUES: [i32; 7] = [-1, -1, MAX + 1, MAX + 1, 65_536, i32::MIN, i32::MAX];

/// A number that no process has.
pub fn nobody(rng: &mut Rng) -> u8 {
    rng.pick(&[0, 9, 10, 128, 255])
}

/// An event by a process that can't call: one asleep, or none at all.
pub fn miscalled(scene: &mut Scene) -> Body {
    let calls: [fn(&mut Scene) -> Body; 8] = [
        choice::create,
        choice::operate,
        choice::set_value,
        choice::remove,
        choice::query,
        choice::set_all,
        choice::read_all,
        choice::act_as,
    ];
    let body = scene.rng.pick(&calls)(scene);
    let process = match &scene.asleep()[..] {
        asleep @ [_, ..] if scene.rng.once_in(2) => scene.rng.pick(asleep),
        _ => nobody(&mut scene.rng),
    };
    by(process, body)
}

/// An event that some check refuses, if only by one; at times by any process, or by none.
pub fn refusal(scene: &mut Scene) -> Body {
    let body = match scene.rng.below(3) {
        0 => mistaken_call(scene),
        _ => mistake(scene),
    };
    match scene.rng.below(8) {
        0 => by(nobody(&mut scene.rng), body),
        1 => by(scene.process(), body),
        _ => body,
    }
}

/// A number that is too high in the set.
fn beyond(rng: &mut Rng, target: &Target) -> u16 {
    target.values.len() as u16 + rng.pick(&[0, 0, 1, 8, 248, 256, 65_000])
}

/// An operate that is empty, too long, or names a semaphore or a set that is not there.
fn mistaken_call(scene: &mut Scene) -> Body {
    let target = scene.target();
    let stranger = stale(scene);
    let caller = scene.caller();
    let rng = &mut scene.rng;
    let either = rng.pick(&[target.identifier, stranger]);
    let most = rng.pick(&[7, 7, 7, OPERATIONS - 1]);
    let mut array = operations(rng, &target, most);
    match rng.below(6) {
        0 => array.clear(),
        1 => array = vec![operation(rng, &target); rng.pick(&[33, 33, 34, 64])],
        2 => array = vec![(beyond(rng, &target), 0, flags(rng)); rng.pick(&[1, 32, 33])],
        3 => {
            let place = rng.below(array.len() + 1);
            array.insert(place, (beyond(rng, &target), amount(rng, 0), flags(rng)));
        }
        _ => array.push((0, narrow(rng.pick(&[0, 1, -1])), flags(rng))),
    }
    call(rng, caller, either, &array)
}

/// Any other event with a mistake, or with two.
fn mistake(scene: &mut Scene) -> Body {
    let mut target = scene.target();
    let (stranger, now) = (stale(scene), scene.time());
    if scene.rng.once_in(6) {
        target.identifier = scene.rng.pick(&[target.identifier, target.identifier, stranger]);
        return refused_setting(scene, &target);
    }
    let someone = scene.someone();
    let rng = &mut scene.rng;
    let (count, beyond, none) = (rng.between(1, 8) as u8, beyond(rng, &target), nobody(rng));
    match rng.below(14) {
        0 => event::create(someone, rng.pick(&[0, 9, 255]), users::mode(rng)),
        1 => event::create(someone, count, users::no_mode(rng)),
        2 => event::create(someone, count, users::mode(rng)),
        3 => event::set_value(someone, stranger, 0, 40_000),
        4 => event::set_value(someone, target.identifier, beyond, 40_000),
        5 => event::set_value(someone, target.identifier, 0, rng.pick(&NO_VALUES)),
        6 => event::remove(someone, stranger),
        7 => event::signal(none),
        8 => event::exit(none),
        9 => event::query(someone, stranger, number(rng, &target)),
        10 => event::query(someone, target.identifier, beyond),
        11 => event::read_all(someone, stranger),
        12 => event::set_all(someone, stranger, &values(rng, &target)),
        _ => event::clock(times::refused(rng, now)),
    }
}

/// A setting of all values that are not as many as the set has, or with one out of range, or both.
pub fn refused_setting(scene: &mut Scene, target: &Target) -> Body {
    let someone = scene.someone();
    let rng = &mut scene.rng;
    let count = target.values.len();
    let number = rng.pick(&[0, count - 1, count + 1, 9, 255, count, count, count]);
    let mut values = values(rng, target);
    values.resize(number, rng.between(0, 4));
    if number > 0 && (number == count || rng.once_in(2)) {
        let inner = rng.below(number);
        values[rng.pick(&[0, inner, number - 1])] = rng.pick(&NO_VALUES);
    }
    event::set_all(someone, target.identifier, &values)
}

/// An identifier close to a live one that names nothing, mostly.
pub fn stale(scene: &mut Scene) -> i32 {
    let identifier = scene.target().identifier;
    let rng = &mut scene.rng;
    match rng.below(8) {
        0 => identifier + 4,
        1 => identifier - 4,
        2 => identifier + 262_144,
        3 => -1 - identifier,
        4 => identifier | i32::MIN,
        5 => identifier ^ 0x0001_0000,
        6 => rng.between(0, 3),
        _ => rng.next() as i32,
    }
}
