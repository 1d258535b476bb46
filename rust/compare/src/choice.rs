//! Single events, chosen with an eye on what is there.

use second::event::{self, Body, Operation};
use second::{Credentials, NOWAIT, UNDO};

use crate::events::EVENTS;
use crate::random::Rng;
use crate::scene::{Scene, Target};
use crate::{times, users};

pub const MAX: i32 = 32_767;
/// Brings an amount into the sixteen bits it has.
pub fn narrow(amount: i32) -> i16 {
    amount.clamp(i16::MIN.into(), i16::MAX.into()) as i16
}

/// A semaphore number that the set has.
pub fn number(rng: &mut Rng, target: &Target) -> u16 {
    rng.below(target.values.len()) as u16
}

/// Two different semaphore numbers of a set with at least two.
pub fn two_numbers(rng: &mut Rng, target: &Target) -> (u16, u16) {
    let count = target.values.len();
    let first = rng.below(count);
    (first as u16, ((first + 1 + rng.below(count - 1)) % count) as u16)
}

/// Small amounts mostly, and those just at and just beyond what the value allows.
pub fn amount(rng: &mut Rng, value: i32) -> i16 {
    narrow(match rng.below(20) {
        0 => -value,
        1 => -value - 1,
        2 => MAX - value,
        3 => MAX - value + 1,
        4 => rng.pick(&[-32_768, -32_767, 32_767, -32_768]),
        5 => i32::from(rng.next() as i16),
        6..=8 => 0,
        _ => rng.between(-3, 3),
    })
}

pub fn flags(rng: &mut Rng) -> u16 {
    let mut flags = 0;
    if rng.once_in(3) {
        flags |= UNDO;
    }
    if rng.once_in(6) {
        flags |= NOWAIT;
    }
    if rng.once_in(10) {
        flags |= rng.next() as u16 & !(UNDO | NOWAIT);
    }
    flags
}

pub fn operation(rng: &mut Rng, target: &Target) -> Operation {
    let number = number(rng, target);
    let amount = amount(rng, target.values[usize::from(number)]);
    (number, amount, flags(rng))
}

pub fn operations(rng: &mut Rng, target: &Target, most: usize) -> Vec<Operation> {
    (0..rng.below(most + 1)).map(|_| operation(rng, target)).collect()
}

/// An operate, once in three with a wait.
pub fn call(rng: &mut Rng, process: u8, identifier: i32, array: &[Operation]) -> Body {
    match rng.below(3) {
        0 => event::timed_operate(process, identifier, times::wait(rng), array),
        _ => event::operate(process, identifier, array),
    }
}

/// An operate of a few operations by a process awake.
pub fn operate(scene: &mut Scene) -> Body {
    let target = scene.target();
    let caller = if scene.rng.once_in(30) { scene.process() } else { scene.caller() };
    let most = scene.rng.pick(&[0, 1, 2, 3, 7]);
    let mut array = operations(&mut scene.rng, &target, most);
    array.push(operation(&mut scene.rng, &target));
    call(&mut scene.rng, caller, target.identifier, &array)
}

/// An operate whose last operation can't go through yet.
pub fn sleepy(scene: &mut Scene) -> Body {
    let target = scene.target();
    let caller = scene.caller();
    let rng = &mut scene.rng;
    let mut array = operations(rng, &target, 4);
    let number = number(rng, &target);
    let value = target.values[usize::from(number)];
    let amount = if value != 0 && rng.once_in(2) { 0 } else { -value - rng.between(1, 2) };
    array.push((number, narrow(amount), flags(rng) & !NOWAIT));
    call(rng, caller, target.identifier, &array)
}

/// An event that may well wake somebody.
pub fn stir(scene: &mut Scene) -> Body {
    if scene.awake().is_empty() {
        return uncalled(scene);
    }
    match scene.rng.below(8) {
        0 | 1 => set_value(scene),
        2 => exit(scene),
        3 => set_all(scene),
        4 => clock(scene),
        _ => operate(scene),
    }
}

pub fn create(scene: &mut Scene) -> Body {
    let creator = scene.someone();
    let rng = &mut scene.rng;
    let count = if rng.once_in(12) { rng.byte() } else { rng.between(1, 8) as u8 };
    event::create(creator, count, users::mode(rng))
}

/// Small values mostly, the largest, the one that is there and those beside it.
fn value(rng: &mut Rng, present: i32) -> i32 {
    match rng.below(12) {
        0 => present,
        1 => MAX - rng.between(0, 4),
        2 => rng.between(0, MAX),
        3 => present + 1,
        4 => present - 1,
        _ => rng.between(0, 4),
    }
}

pub fn set_value(scene: &mut Scene) -> Body {
    let target = scene.target();
    let number = number(&mut scene.rng, &target);
    let value = value(&mut scene.rng, target.values[usize::from(number)]);
    event::set_value(scene.someone(), target.identifier, number, value)
}

/// Values for all semaphores of a set, in range; some stay as they are, at times most of them.
pub fn values(rng: &mut Rng, target: &Target) -> Vec<i32> {
    let staying = rng.pick(&[0, 1, 3]);
    let chosen = |&present: &i32| match rng.below(4) {
        draw if draw < staying => present,
        _ => value(rng, present).clamp(0, MAX),
    };
    target.values.iter().map(chosen).collect()
}

/// All values of a set.
pub fn set_all(scene: &mut Scene) -> Body {
    let target = scene.target();
    event::set_all(scene.someone(), target.identifier, &values(&mut scene.rng, &target))
}

/// Mostly by a process that may.
pub fn remove(scene: &mut Scene) -> Body {
    let target = scene.target();
    let remover = match scene.owner(&target) {
        Some(owner) if !scene.rng.once_in(4) => owner,
        _ => scene.someone(),
    };
    event::remove(remover, target.identifier)
}

pub fn signal(scene: &mut Scene) -> Body {
    let process = match &scene.asleep()[..] {
        [] => scene.process(),
        asleep => scene.rng.pick(asleep),
    };
    event::signal(process)
}

pub fn exit(scene: &mut Scene) -> Body {
    event::exit(scene.process())
}

pub fn query(scene: &mut Scene) -> Body {
    let target = scene.target();
    let number = number(&mut scene.rng, &target);
    event::query(scene.someone(), target.identifier, number)
}

pub fn read_all(scene: &mut Scene) -> Body {
    let target = scene.target();
    event::read_all(scene.someone(), target.identifier)
}

pub fn act_as(scene: &mut Scene) -> Body {
    let Credentials { user, group } = users::credentials(&mut scene.rng);
    event::act_as(scene.someone(), user, group)
}

pub fn clock(scene: &mut Scene) -> Body {
    let (now, ends) = (scene.time(), scene.ends());
    event::clock(times::time(&mut scene.rng, now, &ends))
}

/// An event that asks for a state.
pub fn ask(scene: &mut Scene) -> Body {
    match scene.rng.below(2) {
        0 => query(scene),
        _ => read_all(scene),
    }
}

/// An event that has no caller: while all sleep, no other can wake them.
pub fn uncalled(scene: &mut Scene) -> Body {
    match scene.rng.below(2) {
        0 => exit(scene),
        _ => clock(scene),
    }
}

/// A body of good form, and nothing else: each field is any number, in half of the bodies a small
/// one.
pub fn random(scene: &mut Scene) -> Body {
    let rng = &mut scene.rng;
    let (kind, length) = (rng.pick(&EVENTS), rng.pick(&[0, 1, 2, 3, 8, 32, 33, 255]));
    let mask = if rng.once_in(2) { 3 } else { u64::MAX };
    (kind.drawn)(&mut || rng.next() & mask, length)
}
