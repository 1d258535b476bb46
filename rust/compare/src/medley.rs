//! The scripts as kinds of files, and a medley of them all.

use crate::clock;
use crate::deciding;
use crate::kind::Kind;
use crate::kind::Make::Script;
use crate::long;
use crate::modes;
use crate::scene::Scene;
use crate::script;
use crate::values;

pub static MEDLEY: Kind = Kind::new("medley", Script(play), "episodes of all the scripts below");

pub static SCRIPTS: [Kind; 19] = [
    Kind::new("mixed", Script(script::mixed), "everyday traffic"),
    Kind::new("dense", Script(script::dense), "seven and eight asleep, and what wakes them"),
    Kind::new("chains", Script(script::chain), "wake chains as in situation 11"),
    Kind::new("undo", Script(script::undo), "undo to both limits of value and adjustment"),
    Kind::new("same", Script(script::same_value), "values set to what is there"),
    Kind::new("extremes", Script(script::extremes), "32,767 and -32,768"),
    Kind::new("nowait", Script(script::nowait), "IPC_NOWAIT in sleeping arrays, wakings with 11"),
    Kind::new("range", Script(script::range), "wakings with 34"),
    Kind::new("generations", Script(script::generations), "remove and create, old identifiers"),
    Kind::new("exits", Script(script::exits), "exits that wake in several sets"),
    Kind::new("refusals", Script(script::refusals), "refusals of every code"),
    Kind::new("queries", Script(script::queries), "queries and readings, with sleepers"),
    Kind::new("seven", Script(script::seven_asleep), "seven processes asleep all along"),
    Kind::new("random", Script(script::random), "good bodies, not steered"),
    Kind::new("deciding", Script(deciding::deciding), "arrays that any operation decides"),
    Kind::new("long", Script(long::long), "arrays of twenty to thirty-two operations"),
    Kind::new("whole", Script(values::whole), "all values of a set, set and read at once"),
    Kind::new("timed", Script(clock::timed), "waits, and times that end them"),
    Kind::new(
        "modes",
        Script(modes::modes),
        "owners, groups and modes, and callers of every class",
    ),
];

/// An episode of a random script, or of everyday traffic.
pub fn play(scene: &mut Scene) {
    if scene.rng.once_in(3) {
        (0..8).for_each(|_| script::mixed(scene));
    }
    if let Script(play) = SCRIPTS[scene.rng.below(SCRIPTS.len())].make {
        play(scene);
    }
}
