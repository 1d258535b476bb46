//! Everyday traffic.

use second::event::Body;

use crate::scene::Scene;
use crate::{choice, refusal};

/// Any event, as often as in everyday traffic.
pub fn any(scene: &mut Scene) -> Body {
    if scene.awake().is_empty() && !scene.rng.once_in(4) {
        return choice::uncalled(scene);
    }
    match scene.rng.below(48) {
        0..=1 => choice::create(scene),
        2..=6 => choice::set_value(scene),
        7 => choice::remove(scene),
        8..=9 => choice::signal(scene),
        10..=12 => choice::exit(scene),
        13..=17 => choice::query(scene),
        18..=19 => refusal::refusal(scene),
        20..=27 => choice::sleepy(scene),
        28..=29 => choice::set_all(scene),
        30..=31 => choice::read_all(scene),
        32..=33 => choice::clock(scene),
        34 => choice::act_as(scene),
        35 => refusal::miscalled(scene),
        _ => choice::operate(scene),
    }
}
