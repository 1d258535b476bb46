//! Counts what came, and says what never came.

use second::{Event, RunFile};

use crate::call::Call;
use crate::check::{Difference, Texts};
use crate::checks::{self, Pair};
use crate::counts::{add_all, count_each, entries, lacking, lacking_rows, of, rows, Counts, TITLE};
use crate::events::{self, EventKind, EVENTS};
use crate::grants::{self, Grant};
use crate::lengths::{Length, Lengths, LENGTHS};
use crate::line::Line;
use crate::positions::{Decision, Positions, DECISIONS};
use crate::standing::{self, Standing, STANDINGS};
use crate::waits::{Wait, Waits, WAITS};
use crate::wholes::{Whole, Wholes, WHOLES};
use crate::world::World;
use crate::zeros::{When, Zeros, WHENS};

const BAD: [i32; 4] = [201, 202, 203, 204];
/// Files of more bytes than this count as long.
const LONG: usize = 60_000;
/// The most looks that an event can have.
const LOOKS: i32 = 28;

#[derive(Default)]
pub struct Tally {
    files: u64,
    long: u64,
    bytes: u64,
    events: u64,
    bad: Counts<i32>,
    codes: Counts<(usize, i32)>,
    wakings: Counts<(usize, i32)>,
    quick_looks: Counts<i32>,
    plain_looks: Counts<i32>,
    /// Events that have as many looks as there can be.
    most_looks: Counts<usize>,
    /// What was decided, and at which operation.
    decided: Counts<(Decision, u8)>,
    /// How arrays ended, by their lengths.
    lengths: Counts<(Length, i32)>,
    /// How whole sets were set and read.
    wholes: Counts<(Whole, i32)>,
    /// How waits ended, and which times were told.
    waits: Counts<(Wait, i32)>,
    /// Queries that show a last process set by an amount of 0.
    by_zero: Counts<When>,
    /// What each class was granted and denied.
    grants: Counts<Grant>,
    /// How callers stood to sets.
    standings: Counts<(Standing, i32)>,
    /// Which of two checks decided.
    checks: Counts<Pair>,
}

fn no_line(text: &str) -> Difference {
    format!("all of them write what is no line: {text:?}")
}

impl Tally {
    /// Counts one file by the texts that the programs agreed on.
    pub fn add(&mut self, file: &[u8], texts: &Texts) -> Result<(), Difference> {
        self.files += 1;
        self.long += u64::from(file.len() > LONG);
        self.bytes += file.len() as u64;
        let quick = String::from_utf8_lossy(&texts.quick);
        let plain = String::from_utf8_lossy(&texts.plain);
        let mut lines = quick.lines().zip(plain.lines());
        let first = lines.next().map_or("", |(first, _)| first);
        if let Some(code) = first.strip_prefix("bad ") {
            let code = code.parse().map_err(|_| no_line(first))?;
            *self.bad.entry(code).or_default() += 1;
        } else if let Ok(run) = RunFile::read(file) {
            let (mut zeros, mut positions) = (Zeros::default(), Positions::default());
            let (mut lengths, mut wholes) = (Lengths::default(), Wholes::default());
            let (mut waits, mut world) = (Waits::default(), World::default());
            for ((body, event), (quick, plain)) in run.bodies().zip(run.events()).zip(lines) {
                let quick = Line::read(quick).ok_or_else(|| no_line(quick))?;
                let plain = Line::read(plain).ok_or_else(|| no_line(plain))?;
                self.add_line(events::place(body), &quick, &plain)?;
                self.add_call(&world, event, &quick);
                world.follow(event, &quick);
                count_each(&mut self.decided, positions.follow(event, &quick));
                count_each(&mut self.lengths, lengths.follow(event, &quick));
                count_each(&mut self.wholes, wholes.follow(event, &quick));
                count_each(&mut self.waits, waits.follow(event, &quick));
                count_each(&mut self.by_zero, zeros.follow(event, &quick));
            }
        }
        Ok(())
    }

    fn add_line(&mut self, event: usize, quick: &Line, plain: &Line) -> Result<(), Difference> {
        self.events += 1;
        *self.codes.entry((event, quick.code.number)).or_default() += 1;
        if EVENTS[event].asks {
            return Ok(());
        }
        if let ([_, quick], [_, plain]) = (&quick.numbers[..], &plain.numbers[..]) {
            if *quick.max(plain) > LOOKS {
                let name = EVENTS[event].name;
                return Err(format!(
                    "all of them have over {LOOKS} looks at {name}: {quick}, {plain}"
                ));
            }
            *self.quick_looks.entry(*quick).or_default() += 1;
            *self.plain_looks.entry(*plain).or_default() += 1;
            count_each(&mut self.most_looks, (*plain == LOOKS).then_some(event));
        }
        for (_, code) in &quick.wakings {
            *self.wakings.entry((event, code.number)).or_default() += 1;
        }
        Ok(())
    }

    /// Counts what an event shows of who may do what, in the world before it.
    fn add_call(&mut self, world: &World, event: Event, line: &Line) {
        count_each(&mut self.standings, standing::shown(world, event, line));
        if let Some(call) = Call::of(event) {
            count_each(&mut self.grants, grants::decided(world, call, line));
            count_each(&mut self.checks, checks::decided(world, call, line));
        }
    }

    pub fn merge(&mut self, other: Tally) {
        self.files += other.files;
        self.long += other.long;
        self.bytes += other.bytes;
        self.events += other.events;
        add_all(&mut self.bad, other.bad);
        add_all(&mut self.codes, other.codes);
        add_all(&mut self.wakings, other.wakings);
        add_all(&mut self.quick_looks, other.quick_looks);
        add_all(&mut self.plain_looks, other.plain_looks);
        add_all(&mut self.most_looks, other.most_looks);
        add_all(&mut self.decided, other.decided);
        add_all(&mut self.lengths, other.lengths);
        add_all(&mut self.wholes, other.wholes);
        add_all(&mut self.waits, other.waits);
        add_all(&mut self.by_zero, other.by_zero);
        add_all(&mut self.grants, other.grants);
        add_all(&mut self.standings, other.standings);
        add_all(&mut self.checks, other.checks);
    }

    /// The whole count as a table.
    pub fn table(&self) -> String {
        let mut table = format!(
            "{} files ({} over {LONG} bytes), {} events, {} bytes\n",
            self.files, self.long, self.events, self.bytes
        );
        let rows = [self.event_rows(), self.array_rows(), self.call_rows(), self.last_rows()];
        for (title, entries) in rows.concat() {
            for line in format!("{title:TITLE$}{entries}").lines() {
                table += line.trim_end();
                table += "\n";
            }
        }
        table
    }

    /// Codes and wakings.
    fn event_rows(&self) -> Vec<(String, String)> {
        let codes = EVENTS.iter().enumerate().map(|(index, event)| {
            (format!("{}: codes", event.name), entries(of(&self.codes, index)))
        });
        let wakings = EVENTS.iter().enumerate().map(|(index, event)| {
            (format!("{}: wakings", event.name), entries(of(&self.wakings, index)))
        });
        codes.chain(wakings.filter(|(_, entries)| !entries.is_empty())).collect()
    }

    /// Decisions and lengths of arrays, whole sets and waits.
    fn array_rows(&self) -> Vec<(String, String)> {
        let decided = DECISIONS
            .iter()
            .map(|(decision, name, _)| (name.to_string(), entries(of(&self.decided, *decision))));
        let lengths = rows(&self.lengths, &LENGTHS);
        let wholes = rows(&self.wholes, &WHOLES);
        decided.chain(lengths).chain(wholes).chain(rows(&self.waits, &WAITS)).collect()
    }

    /// Who may do what, and which check comes first.
    fn call_rows(&self) -> Vec<(String, String)> {
        let standings = rows(&self.standings, &STANDINGS);
        grants::rows(&self.grants)
            .into_iter()
            .chain(standings)
            .chain(checks::rows(&self.checks))
            .collect()
    }

    fn last_rows(&self) -> Vec<(String, String)> {
        let most = EVENTS.iter().enumerate().filter_map(|(index, event)| {
            let count = self.most_looks.get(&index)?;
            Some(format!("{}: {count:<7} ", event.name))
        });
        let count = |when| self.by_zero.get(&when).copied().unwrap_or(0);
        let by_zero = WHENS.map(|(when, name)| format!("{name}: {:<7} ", count(when)));
        vec![
            ("looks, quick rule".to_string(), entries(self.quick_looks.iter())),
            ("looks, plain rule".to_string(), entries(self.plain_looks.iter())),
            (format!("{LOOKS} looks by"), most.collect()),
            ("last set by 0".to_string(), by_zero.concat()),
            ("bad files".to_string(), entries(self.bad.iter())),
        ]
    }

    /// What the rules know and no file showed.
    pub fn missing(&self) -> Vec<String> {
        let mut missing = self.missing_codes();
        missing.extend(self.missing_arrays());
        missing.extend(lacking_rows(&self.wholes, &WHOLES));
        missing.extend(lacking_rows(&self.waits, &WAITS));
        missing.extend(self.missing_rights());
        let whens = WHENS.iter().filter(|(when, _)| !self.by_zero.contains_key(when));
        missing.extend(whens.map(|(_, name)| format!("a last process set by 0 {name}")));
        let bad = BAD.iter().filter(|code| !self.bad.contains_key(code));
        missing.extend(bad.map(|code| format!("bad {code}")));
        if self.long == 0 {
            missing.push(format!("a file over {LONG} bytes"));
        }
        missing
    }

    fn missing_codes(&self) -> Vec<String> {
        let mut missing = Vec::new();
        for (index, EventKind { name, codes, wakings, .. }) in EVENTS.iter().enumerate() {
            let codes = lacking(&self.codes, index, codes.iter().copied());
            missing.extend(codes.map(|code| format!("{name} with code {code}")));
            // Where a waking can be 0, sleepers are looked at.
            if wakings.contains(&0) && !self.most_looks.contains_key(&index) {
                missing.push(format!("{LOOKS} looks by {name}"));
            }
            let wakings = lacking(&self.wakings, index, wakings.iter().copied());
            missing.extend(wakings.map(|code| format!("a waking with {code} by {name}")));
        }
        missing
    }

    /// Who may do what, and which check comes first.
    fn missing_rights(&self) -> Vec<String> {
        let mut missing = grants::missing(&self.grants);
        missing.extend(lacking_rows(&self.standings, &STANDINGS));
        missing.extend(checks::missing(&self.checks));
        missing
    }

    /// Decisions and lengths of arrays.
    fn missing_arrays(&self) -> Vec<String> {
        let mut missing = Vec::new();
        for (decision, name, positions) in DECISIONS {
            let lacking = lacking(&self.decided, decision, positions);
            missing.extend(lacking.map(|at| format!("{name} {at}")));
        }
        missing.extend(lacking_rows(&self.lengths, &LENGTHS));
        missing
    }
}

#[cfg(test)]
mod tests {
    use super::*;
    use crate::scene::OPEN;
    use crate::sweep;
    use second::event::{create, set_value};
    use second::{replay, run_file, Rule};

    /// The files that every seed has show all decisions and lengths, all of whole sets and of waits,
    /// and who may do what.
    #[test]
    fn the_sweep_reaches_all_of_arrays_sets_waits_and_rights() {
        let mut tally = Tally::default();
        for file in sweep::files() {
            let [quick, plain] = [Rule::Quick, Rule::Plain].map(|rule| replay(&file, rule));
            tally.add(&file, &Texts { quick, plain }).expect("lines");
        }
        assert_eq!(tally.missing_arrays(), [""; 0]);
        assert_eq!(lacking_rows(&tally.wholes, &WHOLES), [""; 0]);
        assert_eq!(lacking_rows(&tally.waits, &WAITS), [""; 0]);
        assert_eq!(tally.missing_rights(), [""; 0]);
    }

    #[test]
    fn more_looks_than_there_can_be() {
        let file = run_file(&[create(1, 1, OPEN), set_value(1, 0, 0, 1)]);
        let add = |looks: i32| {
            let text = format!("events 2\n0 0 0 0\n1 0 0 {looks}\n").into_bytes();
            Tally::default().add(&file, &Texts { quick: text.clone(), plain: text })
        };
        assert!(add(28).is_ok());
        assert!(add(29).is_err());
    }
}
