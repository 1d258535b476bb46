//! The kinds of files, and the file that belongs to a seed and an index.

use std::iter;

use second::FILE_MAX;

use crate::damage::DAMAGED;
use crate::kind::Kind;
use crate::medley::{MEDLEY, SCRIPTS};
use crate::random::Rng;
use crate::steady::STEADY;
use crate::sweep;

/// Files of a seed that show something of each kind, and all of the sweep.
pub const FILES: u64 = 2_000;

/// The kinds that a seed draws from. In another order it would have other files.
fn drawn() -> impl Iterator<Item = &'static Kind> {
    iter::once(&MEDLEY).chain(&SCRIPTS).chain(&DAMAGED)
}

pub fn kinds() -> impl Iterator<Item = &'static Kind> {
    drawn().chain(&STEADY)
}

pub fn kind_named(name: &str) -> Option<&'static Kind> {
    kinds().find(|kind| kind.name == name)
}

/// All the files of a seed. Every other one is always the same, until those come to their end.
pub struct Files {
    seed: u64,
    kinds: Vec<&'static Kind>,
    sweep: Vec<Vec<u8>>,
}

/// A file, and the name of its kind.
pub struct Made {
    pub kind: &'static str,
    pub bytes: Vec<u8>,
}

impl Files {
    pub fn new(seed: u64) -> Files {
        Files { seed, kinds: drawn().collect(), sweep: sweep::files() }
    }

    /// The file with this index: mostly some hundred events or fewer, now and then a largest one.
    pub fn get(&self, index: u64) -> Made {
        let swept = self.sweep.get(index as usize / 2).filter(|_| index % 2 == 1);
        if let Some(file) = swept {
            return Made { kind: "sweep", bytes: file.clone() };
        }
        let mut rng = Rng::new(self.seed, index);
        let kind = rng.pick(&self.kinds);
        let limit = match rng.below(24) {
            0 => FILE_MAX,
            1..=4 => rng.between(2_000, 12_000) as usize,
            _ => rng.between(60, 2_500) as usize,
        };
        Made { kind: kind.name, bytes: kind.make(rng, limit) }
    }
}

#[cfg(test)]
mod tests {
    use super::*;
    use crate::kind::Make::Script;
    use second::{Host, Rule, RunFile};

    #[test]
    fn the_same_seed_gives_the_same_files() {
        for index in 0..60 {
            assert_eq!(Files::new(7).get(index).bytes, Files::new(7).get(index).bytes);
        }
        assert_ne!(Files::new(7).get(0).bytes, Files::new(8).get(0).bytes);
    }

    #[test]
    fn scripts_make_good_files_of_the_size_wanted() {
        for kind in kinds().filter(|kind| matches!(kind.make, Script(_))) {
            for limit in [20, 500, FILE_MAX] {
                let file = kind.make(Rng::new(3, 0), limit);
                assert!(file.len() <= limit, "{} is too long", kind.name);
                assert!(limit < FILE_MAX || file.len() > 60_000, "{} is too short", kind.name);
                assert!(RunFile::read(&file).is_ok(), "{} is bad", kind.name);
            }
        }
    }

    /// How many are asleep after each event of a full file.
    fn asleep(kind: &str) -> Vec<u32> {
        let kind = kind_named(kind).expect("a kind of the list");
        let file = kind.make(Rng::new(3, 0), FILE_MAX);
        let mut host = Host::new(Rule::Quick);
        let events = RunFile::read(&file).expect("a good file").events();
        let after = |event| {
            host.handle(&event);
            host.asleep().count_ones()
        };
        events.map(after).collect()
    }

    #[test]
    fn the_sweep_has_an_end() {
        assert!(2 * Files::new(7).sweep.len() <= FILES as usize);
    }

    #[test]
    fn sleepers_are_as_many_as_said() {
        for kind in ["seven", "counts", "settings", "readings"] {
            assert!(asleep(kind)[8..].iter().all(|&asleep| asleep == 7), "{kind}");
        }
        // Only one that was woken is awake, and calls again.
        assert!(asleep("starts")[8..].windows(2).all(|pair| pair.contains(&7)));
        let dense = asleep("dense");
        for many in [7, 8] {
            assert!(dense.iter().filter(|&&asleep| asleep == many).count() > 300);
        }
    }
}
