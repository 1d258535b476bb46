//! Episodes in which it matters who asks: sets of any owner, group and mode, and callers of every
//! class.

use second::event::{self, Body, Operation};
use second::{Credentials, NOWAIT, UNDO};

use crate::choice::{self, narrow, MAX};
use crate::class::Class;
use crate::events::by;
use crate::random::Rng;
use crate::scene::{Scene, Target};
use crate::script::fill;
use crate::{refusal, times, users};

pub fn modes(scene: &mut Scene) {
    scene.rouse(3);
    let episodes: [fn(&mut Scene); 7] = [asked, asked, mistaken, mistaken, woken, woken, crowded];
    scene.rng.pick(&episodes)(scene);
}

fn becomes(scene: &mut Scene, process: u8, Credentials { user, group }: Credentials) {
    scene.push(event::act_as(process, user, group));
}

/// A new set of somebody, and who made it. Where there is no room for it, another is removed.
fn owned(scene: &mut Scene, mode: u16) -> (u8, Target) {
    if scene.targets().len() == 4 {
        let old = scene.target();
        scene.remove(&old);
    }
    let creator = scene.caller();
    let somebody = users::credentials(&mut scene.rng);
    becomes(scene, creator, somebody);
    let count = scene.rng.between(3, 8) as u8;
    (creator, scene.created(creator, count, mode))
}

/// A process becomes somebody close to a set's owner and group, and perhaps leaves and comes back;
/// then it asks for this and that.
fn asked(scene: &mut Scene) {
    let mode = users::any_mode(&mut scene.rng);
    let (creator, target) = match scene.rng.below(3) {
        0 => (scene.caller(), scene.target()),
        _ => owned(scene, mode),
    };
    let caller = if scene.rng.once_in(3) { creator } else { scene.caller() };
    let somebody = users::beside(&mut scene.rng, target.owner, target.group);
    becomes(scene, caller, somebody);
    if scene.rng.once_in(3) {
        scene.push(event::exit(caller));
    }
    for _ in 0..scene.rng.between(6, 12) {
        scene.add(|scene| question(&mut scene.rng, caller, &target));
    }
    if scene.rng.once_in(2) {
        scene.push(event::remove(caller, target.identifier));
    }
}

/// A call without a mistake.
fn question(rng: &mut Rng, caller: u8, target: &Target) -> Body {
    let (id, number) = (target.identifier, choice::number(rng, target));
    let amounts: [&[i16]; 6] = [&[0], &[0, 0], &[1], &[-1, 1], &[0, 1], &[1, 0]];
    let operation = |&amount: &i16| (number, amount, NOWAIT);
    let array: Vec<Operation> = rng.pick(&amounts).iter().map(operation).collect();
    match rng.below(8) {
        0 => event::set_value(caller, id, number, rng.between(0, 3)),
        1 => event::set_all(caller, id, &choice::values(rng, target)),
        2 => event::query(caller, id, number),
        3 => event::read_all(caller, id),
        4 | 5 => event::timed_operate(caller, id, times::wait(rng), &array),
        _ => event::operate(caller, id, &array),
    }
}

/// Calls with mistakes and without, by one that may well be denied, one that sleeps, or nobody.
fn mistaken(scene: &mut Scene) {
    fill(scene, 1);
    let (caller, target) = (scene.caller(), scene.target());
    let somebody = users::beside(&mut scene.rng, target.owner, target.group);
    becomes(scene, caller, somebody);
    for _ in 0..scene.rng.between(2, 8) {
        let none = refusal::nobody(&mut scene.rng);
        let asleep = scene.asleep().pop().unwrap_or(none);
        let body = match scene.rng.below(3) {
            0 => question(&mut scene.rng, caller, &target),
            _ => refusal::refusal(scene),
        };
        let process = scene.rng.pick(&[caller, caller, asleep, none]);
        scene.push(by(process, body));
    }
}

/// One sleeps who may read and alter. Another who may alter wakes it, or holds something and exits as
/// somebody who may not.
fn woken(scene: &mut Scene) {
    let classes = [Class::Owner, Class::Group, Class::Other, Class::Root];
    let [sleeps, wakes] = [0, 1].map(|_| scene.rng.pick(&classes));
    let kept = !bits(wakes, scene.rng.pick(&[0, 4]));
    let mode = users::any_mode(&mut scene.rng) & kept | bits(sleeps, 6) | bits(wakes, 2);
    let (_, target) = owned(scene, mode);
    let id = target.identifier;
    let (sleeper, waker) = scene.two_callers();
    for (process, class) in [(sleeper, sleeps), (waker, wakes)] {
        let somebody = users::of_class(&mut scene.rng, class, target.owner, target.group);
        becomes(scene, process, somebody);
    }
    let (array, number, value) = plan(&mut scene.rng, &target);
    let amount = narrow(value);
    let holds = scene.rng.once_in(2);
    if holds {
        scene.push(event::operate(waker, id, &[(number, amount, 0), (number, -amount, UNDO)]));
        let somebody = users::beside(&mut scene.rng, target.owner, target.group);
        becomes(scene, waker, somebody);
    }
    scene.add(|scene| choice::call(&mut scene.rng, sleeper, id, &array));
    let wakes = match scene.rng.below(3) {
        _ if holds => event::exit(waker),
        0 => event::set_value(waker, id, number, value),
        1 => by(waker, scene.setting(id, number, value)),
        _ => event::operate(waker, id, &[(number, amount, 0)]),
    };
    scene.push(wakes);
}

/// These three bits of a class.
fn bits(class: Class, bits: u16) -> u16 {
    match class {
        Class::Owner => bits << 6,
        Class::Group => bits << 3,
        Class::Other => bits,
        Class::Root => 0,
    }
}

/// An array that sleeps in a new set, and the value of a semaphore that ends it with 0, 11 or 34.
fn plan(rng: &mut Rng, target: &Target) -> (Vec<Operation>, u16, i32) {
    let mut numbers: Vec<u16> = (0..target.values.len() as u16).collect();
    rng.shuffle(&mut numbers);
    let (a, b, c) = (numbers[0], numbers[1], numbers[2]);
    let (fails, number, value) = match rng.below(3) {
        0 => (None, a, 1),
        1 => (Some((b, 0, NOWAIT)), b, 1),
        _ => (Some((b, 9, 0)), b, MAX),
    };
    let reads = rng.once_in(2).then_some((c, 0, 0));
    (reads.into_iter().chain(fails).chain([(a, -1, 0)]).collect(), number, value)
}

/// Some sleep while another becomes somebody else; one of them tries to.
fn crowded(scene: &mut Scene) {
    let asleep = scene.rng.below(8);
    fill(scene, asleep);
    scene.add(choice::act_as);
    if let [first, ..] = scene.asleep()[..] {
        scene.add(|scene| by(first, choice::act_as(scene)));
    }
    scene.add(choice::stir);
}

#[cfg(test)]
mod tests {
    use super::*;
    use crate::class::Rights;
    use second::{Event, Host, Rule, FILE_MAX};

    /// Callers of every class set values, and are granted it and denied.
    #[test]
    fn all_classes_are_granted_and_denied() {
        let bodies = Scene::played(modes, Rng::new(3, 0), FILE_MAX);
        let mut host = Host::new(Rule::Quick);
        let mut counts = [[0; 2]; 4];
        for body in &bodies {
            let event = Event::decode(body).expect("a good body");
            let before = host.clone();
            let code = host.handle(&event).code();
            if let (Event::SetValue { process, identifier, .. }, 0 | 13) = (event, code) {
                let (_, set) = before.live_sets().find(|(id, _)| *id == identifier).expect("a set");
                let rights = Rights { owner: set.owner, group: set.group, mode: set.mode };
                let class = rights.class(before.credentials()[usize::from(process) - 1]);
                counts[class as usize][usize::from(code == 13)] += 1;
            }
        }
        assert_eq!(counts[Class::Root as usize][1], 0);
        counts[Class::Root as usize][1] = i32::MAX;
        assert!(counts.iter().flatten().all(|&count| count > 5), "{counts:?}");
    }
}
