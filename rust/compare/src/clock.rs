//! Episodes with waits, and with times that end them.

use second::event::{self, Body, Operation};
use second::{NOWAIT, TIME_MAX};

use crate::choice::{self, narrow, two_numbers, MAX};
use crate::refusal;
use crate::scene::Scene;
use crate::script::fill;
use crate::times;

/// Bytes at the end of a file in which the time comes to its largest: it never goes back.
const LATE: usize = 400;

pub fn timed(scene: &mut Scene) {
    if scene.room() < LATE {
        return late(scene);
    }
    let episodes: [fn(&mut Scene); 5] = [one_by_one, together, in_time, at_once, refused];
    scene.rng.pick(&episodes)(scene);
}

/// A call with this wait that sleeps, mostly.
fn sleep(scene: &mut Scene, process: u8, wait: u32) {
    let target = scene.target();
    let number = choice::number(&mut scene.rng, &target);
    let amount = -target.values[usize::from(number)] - scene.rng.between(1, 2);
    let array = [(number, narrow(amount), 0)];
    scene.push(event::timed_operate(process, target.identifier, wait, &array));
}

/// Some sleep, with waits and without, and end one after the other; in between they may be looked
/// at.
fn one_by_one(scene: &mut Scene) {
    let asleep = scene.rng.below(7);
    fill(scene, asleep);
    for _ in 0..scene.rng.between(1, 3) {
        let (caller, wait) = (scene.caller(), times::wait(&mut scene.rng));
        sleep(scene, caller, wait);
    }
    for _ in 0..scene.rng.between(1, 4) {
        scene.add(choice::clock);
        if scene.rng.once_in(2) {
            scene.add(choice::stir);
        }
    }
    scene.add(choice::ask);
}

/// Waits in several sets, from several starts on, of which one time ends many. The older may end
/// later than the younger, or both at once.
fn together(scene: &mut Scene) {
    let sets = scene.rng.between(1, 4) as usize;
    scene.create_up_to(sets);
    if scene.rng.once_in(3) {
        scene.wake_all();
    }
    let end = scene.time() + 10;
    let mut callers = scene.awake();
    scene.rng.shuffle(&mut callers);
    for caller in callers {
        if scene.rng.once_in(4) {
            scene.push(event::clock((scene.time() + 1).min(end - 1)));
        }
        let until_end = (end - scene.time()) as u32;
        let wait = match scene.rng.below(3) {
            0 => until_end,
            _ => scene.rng.between(1, 11) as u32,
        };
        sleep(scene, caller, wait);
    }
    let last = scene.rng.pick(&[end - 1, end, end, end + 1]);
    scene.push(event::clock(last));
}

/// A sleeper ends before its wait does, in any other way, and perhaps calls again. Then the time
/// comes at which that wait would have been over.
fn in_time(scene: &mut Scene) {
    let target = scene.open_set(2);
    let id = target.identifier;
    let (sleeper, other) = scene.two_callers();
    let (a, b) = two_numbers(&mut scene.rng, &target);
    scene.push(event::set_value(other, id, a, 0));
    scene.push(event::set_value(other, id, b, 0));
    let array: [Operation; 2] = [scene.rng.pick(&[(b, 0, NOWAIT), (b, 9, 0)]), (a, -1, 0)];
    let wait = scene.rng.between(1, 9) as u32;
    let end = scene.time() + u64::from(wait);
    scene.push(event::timed_operate(sleeper, id, wait, &array));
    if scene.rng.once_in(3) {
        scene.push(event::clock(end - 1));
    }
    let ended = match scene.rng.below(8) {
        0 => event::signal(sleeper),
        1 => event::exit(sleeper),
        2 => event::remove(scene.owner(&target).unwrap_or(other), id),
        3 => event::set_value(other, id, a, 1),
        4 => scene.setting(id, a, 1),
        5 => event::operate(other, id, &[(a, 1, 0)]),
        _ => event::set_value(other, id, b, MAX),
    };
    scene.push(ended);
    if scene.rng.once_in(2) {
        scene.add(|scene| choice::call(&mut scene.rng, sleeper, id, &[(a, -9, 0)]));
    }
    scene.push(event::clock(end));
    scene.push(event::read_all(other, id));
}

/// An operate that has no time to sleep, however it ends.
fn at_once(scene: &mut Scene) {
    if scene.rng.once_in(12) {
        scene.add(choice::create);
    }
    if scene.rng.once_in(12) {
        scene.add(choice::remove);
    }
    let choose: fn(&mut Scene) -> Body =
        scene.rng.pick(&[choice::operate, choice::sleepy, refusal::refusal]);
    let body = choose(scene);
    scene.push(with_wait(body, 0));
    scene.add(choice::ask);
}

/// The same operate with this wait; any other event as it is.
fn with_wait(body: Body, wait: u32) -> Body {
    // Where the number of operations stands.
    let number = match body[0] {
        2 => 6,
        8 => 10,
        _ => return body,
    };
    [&[8][..], &body[1..6], &wait.to_le_bytes(), &body[number..]].concat()
}

/// Times that are not told, with sleepers, and then one that is.
fn refused(scene: &mut Scene) {
    for _ in 0..scene.rng.between(1, 3) {
        let now = scene.time();
        let time = times::refused(&mut scene.rng, now);
        scene.push(event::clock(time));
    }
    let (caller, wait) = (scene.caller(), times::wait(&mut scene.rng));
    sleep(scene, caller, wait);
    scene.add(choice::clock);
}

/// The largest time, and waits that end there, before, or never.
fn late(scene: &mut Scene) {
    let left = scene.rng.pick(&[0, 1, 2, 5, u32::MAX - 1, u32::MAX]);
    scene.push(event::clock(TIME_MAX - u64::from(left)));
    for _ in 0..scene.rng.between(1, 3) {
        let beside = [left.max(2) - 1, left, left.saturating_add(1)];
        let wait = scene.rng.pick(&[beside[0], beside[1], beside[2], 1, u32::MAX]);
        let caller = scene.caller();
        sleep(scene, caller, wait);
    }
    let last = scene.rng.below(2) as u64;
    scene.push(event::clock(TIME_MAX - last));
    let beyond = scene.rng.pick(&[TIME_MAX, TIME_MAX, TIME_MAX + 1, u64::MAX]);
    scene.push(event::clock(beyond));
}
