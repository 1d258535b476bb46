//! Measures the events of run files through this package beside the same events in ordinary Rust,
//! in turn, with nothing read or written between them. What comes out is a table in Markdown.

mod measured;
mod through;

use std::process::ExitCode;
use std::time::{Duration, Instant};

use measured::Table;
use second::RunFile;
use through::Handed;
use vairolent::{Host, Told};

const TABLE: Table =
    Table { program: "speed", columns: &["library, ns", "ordinary Rust, ns", "Ratio"], cells };

fn main() -> ExitCode {
    TABLE.write()
}

fn cells(run: &RunFile, rounds: u32) -> Option<Vec<String>> {
    let events: Vec<Handed> = run.events().map(Handed::from).collect();
    let [library, ordinary] = best(&events, rounds)?;
    let each = |time: Duration| time.as_nanos() as f64 / events.len().max(1) as f64;
    let (library, ordinary) = (each(library), each(ordinary));
    let ratio = library / ordinary;
    Some(vec![format!("{library:.0}"), format!("{ordinary:.0}"), format!("{ratio:.2}")])
}

/// The best time of each side; nothing if what they told ever came to another sum.
fn best(events: &[Handed], rounds: u32) -> Option<[Duration; 2]> {
    let mut best = [Duration::MAX; 2];
    for _ in 0..rounds {
        let begin = Instant::now();
        let mut host = Host::new();
        let library: i64 = events.iter().map(|handed| by_library(&mut host, handed)).sum();
        let middle = Instant::now();
        let mut host = second::Host::new(second::Rule::Quick);
        let ordinary: i64 = events.iter().map(|handed| by_ordinary(&mut host, handed)).sum();
        let times = [middle - begin, middle.elapsed()];
        if library != ordinary {
            return None;
        }
        best = [best[0].min(times[0]), best[1].min(times[1])];
    }
    Some(best)
}

/// Code, value, looks and number of wakings of an event, added up; a query's code and value, or a
/// read all's code and values.
fn by_library(host: &mut Host, handed: &Handed) -> i64 {
    match through::run(host, handed) {
        Told::Refused(error) => error.code().into(),
        Told::Asleep { .. } => -1,
        Told::Made(identifier) => identifier.into(),
        Told::Done(wakings) => (wakings.looks() + wakings.len()) as i64,
        Told::Seen(seen) => seen.value.into(),
        Told::Read(set) => set.semaphores().iter().map(|each| i64::from(each.value)).sum(),
    }
}

/// The same by ordinary Rust.
fn by_ordinary(host: &mut second::Host, handed: &Handed) -> i64 {
    match host.handle(&handed.event) {
        second::Answer::Event(report) => {
            let looks = i64::from(report.looks) + report.wakings.as_slice().len() as i64;
            i64::from(report.code) + i64::from(report.value) + looks
        }
        second::Answer::Query(state) => i64::from(state.code) + i64::from(state.value),
        second::Answer::Reading(reading) => {
            let values = reading.states().map(|state| i64::from(state.value));
            i64::from(reading.code) + values.sum::<i64>()
        }
    }
}
