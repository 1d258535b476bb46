//! Episodes with events on all values of a set.

use second::event::{self, Operation};
use second::UNDO;

use crate::choice::{self, narrow};
use crate::refusal;
use crate::scene::{wakes_with, Scene};
use crate::script::fill;

pub fn whole(scene: &mut Scene) {
    let episodes: [fn(&mut Scene); 5] = [start, at_once, counted, cleared, refused];
    scene.rng.pick(&episodes)(scene);
}

/// Sleepers wait until all values are set.
fn start(scene: &mut Scene) {
    let asleep = scene.rng.between(2, 7) as usize;
    fill(scene, asleep);
    let code = scene.rng.pick(&[0, 11, 34]);
    scene.seek(|answer| wakes_with(answer, code), choice::set_all);
    scene.add(choice::read_all);
}

/// Set one by one, the values would wake the younger process first; at once they wake the older,
/// which takes all of them.
fn at_once(scene: &mut Scene) {
    let target = scene.open_set(2);
    let id = target.identifier;
    scene.calm(id);
    let (older, younger) = scene.two_callers();
    let values: Vec<i32> = target.values.iter().map(|_| scene.rng.between(1, 3)).collect();
    let take = |(number, &value): (usize, &i32)| (number as u16, narrow(-value), 0);
    let mut array: Vec<Operation> = values.iter().enumerate().map(take).collect();
    scene.rng.shuffle(&mut array);
    scene.push(event::operate(older, id, &array));
    let one = scene.rng.pick(&array);
    scene.push(event::operate(younger, id, &[one]));
    scene.push(event::set_all(scene.someone(), id, &values));
    scene.push(event::read_all(scene.someone(), id));
}

/// In a set of any size some wait at the same semaphore, for increase and for zero.
fn counted(scene: &mut Scene) {
    let count = scene.rng.between(1, 8) as u8;
    let target = scene.new_set(count);
    let id = target.identifier;
    let (one, other) = scene.two_callers();
    let number = choice::number(&mut scene.rng, &target);
    let value = scene.rng.between(1, 3);
    scene.push(scene.setting(id, number, value));
    scene.push(event::operate(one, id, &[(number, 0, 0)]));
    scene.push(event::operate(other, id, &[(number, narrow(-value - 1), 0)]));
    let asleep = scene.rng.between(2, 7) as usize;
    fill(scene, asleep);
    scene.push(event::read_all(scene.someone(), id));
}

/// Processes hold adjustments at all semaphores of a set. Where the setting is not refused, their
/// exits give nothing back.
fn cleared(scene: &mut Scene) {
    let target = scene.open_set(1);
    let id = target.identifier;
    let mut holders = scene.awake();
    scene.rng.shuffle(&mut holders);
    holders.truncate(scene.rng.between(1, 3) as usize);
    let numbers = 0..target.values.len() as u16;
    for &holder in &holders {
        let hold = |number| (number, narrow(scene.rng.between(1, 3)), UNDO);
        let array: Vec<Operation> = numbers.clone().map(hold).collect();
        scene.push(event::operate(holder, id, &array));
    }
    let setting = match scene.rng.below(4) {
        0 => refusal::refused_setting(scene, &target),
        _ => event::set_all(scene.someone(), id, &choice::values(&mut scene.rng, &target)),
    };
    scene.push(setting);
    for holder in holders {
        scene.push(event::exit(holder));
    }
    scene.push(event::read_all(scene.someone(), id));
}

/// A setting that is refused leaves all as it is.
fn refused(scene: &mut Scene) {
    let asleep = scene.rng.below(4);
    fill(scene, asleep);
    let target = scene.target();
    scene.add(|scene| refusal::refused_setting(scene, &target));
    scene.push(event::read_all(scene.someone(), target.identifier));
}
