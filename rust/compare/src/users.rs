//! Users, groups and modes, drawn from few so that they meet.

use second::{Credentials, MODE_MAX};

use crate::class::Class;
use crate::random::Rng;
use crate::scene::OPEN;

/// Users and groups alike: 0, small ones, some that are 1 or 2 but for one byte, and the largest.
const NUMBERS: [u32; 12] = [0, 0, 0, 1, 1, 1, 2, 2, 1 | 1 << 8, 1 | 1 << 16, 1 | 1 << 24, u32::MAX];

pub fn number(rng: &mut Rng) -> u32 {
    rng.pick(&NUMBERS)
}

pub fn credentials(rng: &mut Rng) -> Credentials {
    Credentials { user: number(rng), group: number(rng) }
}

/// Numbers that a set has, some close to them, and others.
pub fn beside(rng: &mut Rng, owner: u32, group: u32) -> Credentials {
    let mut close = |own: u32, others: u32| match rng.below(8) {
        0..=2 => own,
        3 => others,
        4 => own ^ 1 << (8 * rng.below(4)),
        5 => 0,
        _ => number(rng),
    };
    Credentials { user: close(owner, group), group: close(group, owner) }
}

/// Somebody of a class of the set with this owner and group.
pub fn of_class(rng: &mut Rng, class: Class, owner: u32, group: u32) -> Credentials {
    match class {
        Class::Owner => Credentials { user: owner, group: number(rng) },
        Class::Group => Credentials { user: another(rng, owner), group },
        Class::Other => Credentials { user: another(rng, owner), group: another(rng, group) },
        Class::Root => Credentials { user: 0, group: number(rng) },
    }
}

/// A number that is another by one bit, and not 0.
fn another(rng: &mut Rng, number: u32) -> u32 {
    match number ^ 1 << rng.below(32) {
        0 => u32::MAX,
        another => another,
    }
}

/// Open to all mostly, and any nine bits.
pub fn mode(rng: &mut Rng) -> u16 {
    match rng.below(4) {
        0 => any_mode(rng),
        1 => MODE_MAX,
        _ => OPEN,
    }
}

pub fn any_mode(rng: &mut Rng) -> u16 {
    rng.below(usize::from(MODE_MAX) + 1) as u16
}

/// A mode that no set can have.
pub fn no_mode(rng: &mut Rng) -> u16 {
    let low = any_mode(rng);
    rng.pick(&[MODE_MAX + 1, (MODE_MAX + 1) | low, 1 << 15 | low, u16::MAX])
}

#[cfg(test)]
mod tests {
    use super::*;
    use crate::class::Rights;

    #[test]
    fn somebody_of_each_class() {
        let mut rng = Rng::new(3, 0);
        for class in [Class::Owner, Class::Group, Class::Other, Class::Root] {
            for owner in [1, 8, u32::MAX] {
                let set = Rights { owner, group: 1, mode: 0 };
                assert_eq!(set.class(of_class(&mut rng, class, owner, 1)), class);
            }
        }
    }
}
