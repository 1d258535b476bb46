//! A kind of files: its name, and how one of them is made.

use second::run_file;

use crate::random::Rng;
use crate::scene::Scene;

pub struct Kind {
    pub name: &'static str,
    pub make: Make,
    /// What its files are about.
    pub about: &'static str,
}

#[derive(Clone, Copy)]
pub enum Make {
    /// Good files: the script is played until the file is full.
    Script(fn(&mut Scene)),
    /// Files made byte by byte.
    Bytes(fn(Rng, usize) -> Vec<u8>),
}

impl Kind {
    pub const fn new(name: &'static str, make: Make, about: &'static str) -> Kind {
        Kind { name, make, about }
    }

    /// A file of this kind; a good one is filled up to `limit` bytes.
    pub fn make(&self, rng: Rng, limit: usize) -> Vec<u8> {
        match self.make {
            Make::Bytes(make) => make(rng, limit),
            Make::Script(play) => run_file(&Scene::played(play, rng, limit)),
        }
    }
}
