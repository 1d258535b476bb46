//! Traffic in episodes: each script plays one, a few events to a few dozen, on whatever the scene
//! holds. A file repeats one script, or mixes them.

use second::{event, NOWAIT, UNDO};

use crate::choice::{self, narrow, two_numbers, MAX};
use crate::scene::{wakes_with, wakings, Scene, OPEN};
use crate::{everyday, refusal};

/// Everyday traffic.
pub fn mixed(scene: &mut Scene) {
    scene.add(everyday::any);
}

/// Bodies of good form, not steered at all.
pub fn random(scene: &mut Scene) {
    scene.add(choice::random);
}

/// Sends processes to sleep until so many are.
pub fn fill(scene: &mut Scene, asleep: usize) {
    for _ in 0..24 {
        if scene.asleep().len() >= asleep {
            break;
        }
        scene.seek(|answer| answer.code() == -1, choice::sleepy);
    }
}

/// Seven or eight asleep, and events that wake some of them.
pub fn dense(scene: &mut Scene) {
    let asleep = scene.rng.pick(&[7, 7, 8]);
    fill(scene, asleep);
    for _ in 0..scene.rng.between(1, 4) {
        scene.seek(|answer| !wakings(answer).is_empty(), choice::stir);
    }
    scene.add(choice::ask);
}

/// Situation 11: each sleeper that is woken frees the next, mostly from the newest to the oldest.
pub fn chain(scene: &mut Scene) {
    let least = scene.rng.pick(&[2, 5, 8]);
    let target = scene.open_set(least);
    scene.calm(target.identifier);
    // The last process stays awake.
    let links = scene.rng.between(2, target.values.len().min(7) as i32) as u16;
    let mut order: Vec<u16> = (0..links).collect();
    if scene.rng.once_in(3) {
        scene.rng.shuffle(&mut order);
    }
    let undo = if scene.rng.once_in(4) { UNDO } else { 0 };
    for link in order {
        let mut array = vec![(link, -1, undo)];
        if link > 0 {
            array.push((link - 1, 1, 0));
        }
        scene.push(event::operate(link as u8 + 1, target.identifier, &array));
    }
    let first = match scene.rng.below(4) {
        0 | 1 => event::operate(8, target.identifier, &[(links - 1, 1, 0)]),
        2 => scene.setting(target.identifier, links - 1, 1),
        _ => event::set_value(scene.someone(), target.identifier, links - 1, 1),
    };
    scene.push(first);
}

/// Undo to both limits: of the value at exit, and of the adjustment.
pub fn undo(scene: &mut Scene) {
    let target = scene.open_set(1);
    let number = choice::number(&mut scene.rng, &target);
    let (holder, other) = scene.two_callers();
    let start = scene.rng.pick(&[0, 0, MAX, MAX, 5, 16_000]);
    scene.push(event::set_value(scene.someone(), target.identifier, number, start));
    let step = scene.rng.pick(&[1, 2, 3, 10, 16_384]);
    let take = scene.rng.pick(&[MAX, MAX - 1, step, 16_384]).min(MAX - start + step);
    // Upwards from low values, else downwards, so that the adjustment goes the other way.
    let sign = if start < 16_000 { 1 } else { -1 };
    let amounts = [
        (holder, sign * take, UNDO),
        (other, -sign * step, 0),
        (holder, sign * step, UNDO),
        (other, -sign * (step + 1), NOWAIT),
        (holder, sign * step, UNDO),
    ];
    let events = scene.rng.between(1, amounts.len() as i32) as usize;
    for &(process, amount, flags) in &amounts[..events] {
        let array = [(number, narrow(amount), flags)];
        scene.push(event::operate(process, target.identifier, &array));
    }
    if scene.rng.once_in(4) {
        let value = scene.rng.pick(&[0, 1, MAX]);
        set(scene, target.identifier, number, value);
    }
    scene.push(event::exit(holder));
    scene.push(event::query(scene.someone(), target.identifier, number));
}

/// Sets a value, or all of its set, of which the others stay as they are.
fn set(scene: &mut Scene, identifier: i32, number: u16, value: i32) {
    let body = match scene.rng.below(2) {
        0 => event::set_value(scene.someone(), identifier, number, value),
        _ => scene.setting(identifier, number, value),
    };
    scene.push(body);
}

/// Values are set to what is there: it touches all the same, and the adjustments that it clears can
/// change an outcome.
pub fn same_value(scene: &mut Scene) {
    let target = scene.open_set(2);
    let (a, b) = two_numbers(&mut scene.rng, &target);
    let (holder, other) = scene.two_callers();
    let id = target.identifier;
    if scene.rng.once_in(2) {
        scene.push(event::set_value(scene.someone(), id, a, MAX));
        scene.push(event::set_value(scene.someone(), id, b, 0));
        scene.push(event::operate(holder, id, &[(a, -32_767, UNDO)]));
        let up = narrow(scene.rng.between(16_384, MAX));
        let array = [(a, up, UNDO), (a, -up, 0), (a, up, UNDO), (b, -1, 0)];
        scene.push(event::operate(holder, id, &array));
        scene.push(event::read_all(other, id));
        set(scene, id, a, 0);
    } else {
        fill(scene, 3);
    }
    for target in scene.targets() {
        let number = choice::number(&mut scene.rng, &target);
        let value = target.values[usize::from(number)];
        set(scene, target.identifier, number, value);
    }
    scene.push(event::exit(other));
}

/// Amounts and values at the ends of their ranges.
pub fn extremes(scene: &mut Scene) {
    let target = scene.open_set(1);
    let number = choice::number(&mut scene.rng, &target);
    let value = scene.rng.pick(&[0, 1, MAX - 1, MAX]);
    scene.rouse(2);
    scene.push(event::set_value(scene.someone(), target.identifier, number, value));
    for _ in 0..3 {
        let caller = scene.caller();
        let mut array = Vec::new();
        for _ in 0..scene.rng.between(1, 3) {
            let amount = scene.rng.pick(&[-32_768, -32_768, -32_767, MAX, MAX - 1, 1, -1, 0]);
            array.push((number, narrow(amount), choice::flags(&mut scene.rng)));
        }
        scene.add(|scene| choice::call(&mut scene.rng, caller, target.identifier, &array));
    }
    let leaver = scene.process();
    scene.push(event::exit(leaver));
    scene.push(event::query(scene.someone(), target.identifier, number));
}

/// A semaphore changes under a sleeper that waits at another: by set value, by operate, by the exit
/// of a process that holds an adjustment, or by a setting of all values. `code` is how the sleeper
/// ends.
fn change_under(scene: &mut Scene, code: u8) {
    let target = scene.open_set(2);
    let id = target.identifier;
    let (a, b) = two_numbers(&mut scene.rng, &target);
    let (holder, sleeper) = scene.two_callers();
    let step = scene.rng.between(1, 9);
    // The value goes from one to another, and then the sleeper's first operation fails.
    let (from, to, first) = match code {
        34 => (MAX - step, MAX, (a, narrow(step), UNDO)),
        _ if scene.rng.once_in(2) => (0, step, (a, 0, NOWAIT)),
        _ => (step, 0, (a, narrow(-step), NOWAIT)),
    };
    scene.push(event::set_value(scene.someone(), id, b, 0));
    scene.push(event::set_value(scene.someone(), id, a, to));
    scene.push(event::operate(holder, id, &[(a, narrow(from - to), UNDO)]));
    scene.add(|scene| choice::call(&mut scene.rng, sleeper, id, &[first, (b, -1, 0)]));
    if scene.rng.once_in(3) {
        let asleep = scene.asleep().len() + 2;
        fill(scene, asleep.min(7));
    }
    let change = match scene.rng.below(4) {
        0 => event::set_value(scene.someone(), id, a, to),
        1 => event::operate(holder, id, &[(a, narrow(to - from), 0)]),
        2 => scene.setting(id, a, to),
        _ => event::exit(holder),
    };
    scene.push(change);
    scene.seek(|answer| wakes_with(answer, code), choice::stir);
}

/// Sleepers with IPC_NOWAIT on an operation that went through so far.
pub fn nowait(scene: &mut Scene) {
    change_under(scene, 11);
}

/// Sleepers whose array goes out of range meanwhile.
pub fn range(scene: &mut Scene) {
    change_under(scene, 34);
}

/// Removal and creation, with sleepers, adjustments and identifiers left over.
pub fn generations(scene: &mut Scene) {
    for _ in 0..scene.rng.between(1, 4) {
        scene.add(choice::create);
    }
    let asleep = scene.rng.below(6);
    fill(scene, asleep);
    let (_, caller) = scene.two_callers();
    let target = scene.target();
    let id = target.identifier;
    let number = choice::number(&mut scene.rng, &target);
    scene.push(event::operate(caller, id, &[(number, 3, UNDO)]));
    scene.remove(&target);
    if scene.rng.once_in(3) {
        scene.push(event::exit(caller));
    }
    let stale = refusal::stale(scene);
    scene.push(event::create(scene.someone(), 8, OPEN));
    scene.push(event::operate(caller, id, &[(number, 1, 0)]));
    scene.push(event::set_all(scene.someone(), id, &target.values));
    scene.push(event::query(scene.someone(), stale, number));
    scene.push(event::read_all(scene.someone(), stale));
    scene.push(event::remove(scene.someone(), id));
    scene.push(event::exit(caller));
    scene.add(choice::ask);
}

/// A process that holds adjustments in several sets exits, and wakes sleepers in them.
pub fn exits(scene: &mut Scene) {
    scene.create_up_to(3);
    let (holder, _) = scene.two_callers();
    let mut held = Vec::new();
    for target in scene.targets() {
        let number = choice::number(&mut scene.rng, &target);
        let amount = scene.rng.between(1, 3);
        scene.push(event::set_value(scene.someone(), target.identifier, number, amount));
        scene.push(event::operate(holder, target.identifier, &[(number, narrow(-amount), UNDO)]));
        held.push((target.identifier, number));
    }
    scene.rng.shuffle(&mut held);
    for (identifier, number) in held {
        let sleeper = scene.awake().into_iter().find(|&process| process != holder);
        let amount = scene.rng.pick(&[-1, -1, -2, -3]);
        let array = [(number, amount, choice::flags(&mut scene.rng) & !NOWAIT)];
        let caller = sleeper.unwrap_or(holder);
        scene.add(|scene| choice::call(&mut scene.rng, caller, identifier, &array));
    }
    scene.push(event::exit(holder));
}

/// Refusals of every code.
pub fn refusals(scene: &mut Scene) {
    if scene.awake().is_empty() {
        scene.wake_all();
    }
    if scene.rng.once_in(12) {
        let asleep = scene.rng.below(4);
        fill(scene, asleep);
    }
    if scene.rng.once_in(12) {
        scene.add(choice::create);
        scene.add(choice::act_as);
    }
    scene.add(refusal::refusal);
}

/// Every semaphore of every set is asked for, each alone and all at once, with sleepers at them.
pub fn queries(scene: &mut Scene) {
    let asleep = scene.rng.between(2, 7) as usize;
    scene.rouse(1);
    fill(scene, asleep);
    for target in scene.targets() {
        for number in 0..=target.values.len() as u16 {
            scene.push(event::query(scene.someone(), target.identifier, number));
        }
        scene.push(event::read_all(scene.someone(), target.identifier));
    }
    scene.add(choice::stir);
}

/// Seven processes stay asleep all along; the eighth works beside them, so that they are looked
/// at without end. The last semaphore, for which they all wait at last, stays at 0.
pub fn seven_asleep(scene: &mut Scene) {
    let target = scene.open_set(8);
    let id = target.identifier;
    for process in scene.awake().into_iter().filter(|&process| process != 8) {
        let (a, b) = (scene.rng.below(7) as u16, scene.rng.below(7) as u16);
        let array = [(a, -narrow(scene.rng.between(0, 2)), 0), (b, 1, UNDO), (7, -1, 0)];
        scene.push(event::operate(process, id, &array));
    }
    let number = scene.rng.below(7) as u16;
    let value = target.values[usize::from(number)];
    let amount = scene.rng.between(if value > 0 { -1 } else { 0 }, 1);
    let body = match scene.rng.below(8) {
        0 => event::set_value(8, id, number, scene.rng.between(0, 3)),
        1 => event::query(8, id, scene.rng.below(8) as u16),
        2 => event::operate(8, id, &[(7, 1, 0), (number, 1, 0), (7, -1, 0)]),
        _ => event::operate(8, id, &[(number, narrow(amount), NOWAIT)]),
    };
    scene.push(body);
}
