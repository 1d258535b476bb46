//! Holds whole sets, as this package shows them, to ordinary Rust: it replays run files through
//! both, and compares after every event what each set, live or not, shows to each process. What
//! comes out says how much was compared.

mod through;

use std::collections::BTreeMap;
use std::process::ExitCode;

use second::{RunFile, State};
use through::Handed;
use vairolent::{Host, Semaphore, PROCESSES};

const USAGE: &str = "usage: sets FILE...";

fn main() -> ExitCode {
    let paths: Vec<String> = std::env::args().skip(1).collect();
    match compare(&paths) {
        Ok(tally) => {
            println!(
                "{} files; sets alike: {}; refused, by code: {:?}",
                paths.len(),
                tally.alike,
                tally.refused
            );
            println!(
                "arrays judged: {}; of sets beside sleepers of others: {}",
                tally.judged, tally.beside
            );
            ExitCode::SUCCESS
        }
        Err(words) => {
            eprintln!("sets: {words}");
            ExitCode::FAILURE
        }
    }
}

/// How much was compared.
#[derive(Default)]
struct Tally {
    /// Whole sets that both show alike, and those that both refuse, by code.
    alike: usize,
    refused: BTreeMap<i32, usize>,
    /// Arrays that were judged; sets with sleepers while others sleep elsewhere.
    judged: usize,
    beside: usize,
}

fn compare(paths: &[String]) -> Result<Tally, String> {
    if paths.is_empty() {
        return Err(USAGE.to_string());
    }
    let mut tally = Tally::default();
    for path in paths {
        let bytes = std::fs::read(path).map_err(|error| format!("{path}: {error}"))?;
        // A bad file has no events, and so no sets.
        if let Ok(run) = RunFile::read(&bytes) {
            replay(&run, &mut tally).map_err(|words| format!("{path}: {words}"))?;
        }
    }
    let came = [tally.alike, tally.judged, tally.beside];
    if came.contains(&0) || !tally.refused.keys().eq(&REFUSALS) {
        return Err(format!("too little was compared: {came:?}, {:?}", tally.refused));
    }
    Ok(tally)
}

/// No such process, not permitted, the process is asleep, and no such set.
const REFUSALS: [i32; 4] = [3, 13, 16, 22];

/// Every event in both; after each the set of every slot, and an identifier of the next generation,
/// for every process, and two that are none.
fn replay(run: &RunFile, tally: &mut Tally) -> Result<(), String> {
    let mut host = Host::new();
    let mut ordinary = second::Host::new(second::Rule::Quick);
    for (position, event) in run.events().enumerate() {
        let _ = through::run(&mut host, &Handed::from(event));
        ordinary.handle(&event);
        let live: Vec<i32> = ordinary.live_sets().map(|(identifier, _)| identifier).collect();
        let others = live.iter().map(|identifier| identifier + 4);
        for identifier in live.iter().copied().chain(others).chain([-1, 0, 1, 2, 3]) {
            for process in 0..=PROCESSES as u8 + 1 {
                one(&host, &ordinary, process, identifier, tally).ok_or_else(|| {
                    format!("event {position}: set {identifier} is not alike for process {process}")
                })?;
            }
        }
    }
    Ok(())
}

/// One identifier for one process in both; nothing if they differ.
fn one(
    host: &Host,
    ordinary: &second::Host,
    process: u8,
    identifier: i32,
    tally: &mut Tally,
) -> Option<()> {
    match (host.query_set(process, identifier), ordinary.query_set(process, identifier)) {
        (Ok(seen), Ok(wanted)) => {
            let states: Option<Vec<State>> = seen.semaphores().iter().map(state).collect();
            tally.alike += 1;
            tally.judged += seen.judged() as usize;
            let others = ordinary.asleep().count_ones() - seen.judged();
            tally.beside += usize::from(seen.judged() > 0 && others > 0);
            (wanted.states().eq(states?) && seen.judged() == wanted.judged).then_some(())
        }
        (Err(error), Err(errno)) if error.code() == i32::from(errno.number()) => {
            *tally.refused.entry(error.code()).or_default() += 1;
            Some(())
        }
        _ => None,
    }
}

/// A semaphore as ordinary Rust shows it; nothing if a count is not the number of ones in its mask.
fn state(seen: &Semaphore) -> Option<State> {
    let counts = (seen.increase_mask.count_ones(), seen.zero_mask.count_ones());
    let state = State {
        code: 0,
        value: seen.value.into(),
        last: seen.last,
        for_increase: seen.increase_mask,
        for_zero: seen.zero_mask,
    };
    (counts == (seen.increase, seen.zero)).then_some(state)
}
