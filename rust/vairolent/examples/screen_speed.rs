//! Measures a screen that shows every semaphore of every set: by whole sets through this package, by
//! a query of each semaphore, and by whole sets in ordinary Rust, in turn, on the hosts that run
//! files leave. What comes out is a table in Markdown.

mod measured;
mod through;

use std::process::ExitCode;
use std::time::{Duration, Instant};

use measured::Table;
use second::{Event, RunFile};
use through::Handed;
use vairolent::Host;

/// How often a round shows the screen.
const TIMES: u32 = 1_000;

/// The process that shows it.
const SCREEN: u8 = 8;

const TABLE: Table = Table {
    program: "screen_speed",
    columns: &["Semaphores", "Asleep", "whole sets, ns", "queries, ns", "ordinary Rust, ns"],
    cells,
};

fn main() -> ExitCode {
    TABLE.write()
}

fn cells(run: &RunFile, rounds: u32) -> Option<Vec<String>> {
    let screen = Screen::after(run);
    let semaphores: usize = screen.sets.iter().map(|&(_, count)| usize::from(count)).sum();
    let asleep = screen.ordinary.asleep().count_ones();
    let times = screen.best(rounds)?.map(|time| time.to_string());
    Some([[semaphores.to_string(), asleep.to_string()].as_slice(), &times].concat())
}

/// A host in both, and its live sets, each with its number of semaphores.
struct Screen {
    host: Host,
    ordinary: second::Host,
    sets: Vec<(i32, u16)>,
}

impl Screen {
    /// The host that a run leaves, once the screen's process is awake and may read every set.
    fn after(run: &RunFile) -> Screen {
        let mut host = Host::new();
        let mut ordinary = second::Host::new(second::Rule::Quick);
        let user_0 = Event::ActAs { process: SCREEN, user: 0, group: 0 };
        for event in run.events().chain([Event::Signal { process: SCREEN }, user_0]) {
            let _ = through::run(&mut host, &Handed::from(event));
            ordinary.handle(&event);
        }
        let set = |(identifier, set): (i32, &second::Set)| (identifier, u16::from(set.count));
        let sets = ordinary.live_sets().map(set).collect();
        Screen { host, ordinary, sets }
    }

    /// The best nanoseconds of a screen each way; nothing if what they show ever comes to another
    /// sum.
    fn best(&self, rounds: u32) -> Option<[u128; 3]> {
        let ways: [fn(&Screen) -> u64; 3] = [Screen::whole, Screen::each, Screen::ordinary];
        let mut best = [Duration::MAX; 3];
        for _ in 0..rounds {
            let mut sums = [0; 3];
            for (way, show) in ways.iter().enumerate() {
                let begin = Instant::now();
                sums[way] = (0..TIMES).map(|_| show(self)).sum();
                best[way] = best[way].min(begin.elapsed());
            }
            if sums != [sums[0]; 3] {
                return None;
            }
        }
        Some(best.map(|time| time.as_nanos() / u128::from(TIMES)))
    }

    /// Values, counts and last processes of all that is shown, added up.
    fn whole(&self) -> u64 {
        let shown = self
            .sets
            .iter()
            .filter_map(|&(identifier, _)| self.host.query_set(SCREEN, identifier).ok());
        shown.map(|set| set.semaphores().iter().map(sum).sum::<u64>()).sum()
    }

    /// The same by a query of each semaphore.
    fn each(&self) -> u64 {
        let all = self
            .sets
            .iter()
            .flat_map(|&(identifier, count)| (0..count).map(move |n| (identifier, n)));
        all.filter_map(|(identifier, n)| self.host.query(SCREEN, identifier, n).ok())
            .map(|seen| sum(&seen))
            .sum()
    }

    /// The same in ordinary Rust.
    fn ordinary(&self) -> u64 {
        let sum = |state: second::State| {
            let waiting = state.for_increase.count_ones() + state.for_zero.count_ones();
            state.value as u64 + u64::from(state.last) + u64::from(waiting)
        };
        let shown = self
            .sets
            .iter()
            .filter_map(|&(identifier, _)| self.ordinary.query_set(SCREEN, identifier).ok());
        shown.map(|set| set.states().map(sum).sum::<u64>()).sum()
    }
}

fn sum(seen: &vairolent::Semaphore) -> u64 {
    u64::from(seen.value) + u64::from(seen.last) + u64::from(seen.increase + seen.zero)
}
