//! Runs with every expected line written down by hand.

mod callers;
mod clock;
mod files;
mod permission;
mod positions;
mod program;
mod rules;
mod situations;
mod whole;

use second::event::{self, operate, set_value, Body};
use second::{replay, run_file, Rule, UNDO};

/// A set of eight semaphores, everybody permitted.
fn create() -> Body {
    event::create(8, 8, 0o666)
}

fn text(file: &[u8], rule: Rule) -> String {
    String::from_utf8(replay(file, rule)).expect("lines are plain text")
}

/// Replays the bodies by both rules. Each body stands with its line, less the position; where the
/// looks differ, it has those of the quick rule, a slash, and those of the plain rule.
fn check(run: &[(Body, &str)]) {
    let bodies: Vec<Body> = run.iter().map(|(body, _)| body.clone()).collect();
    for (rule, side) in [(Rule::Quick, 0), (Rule::Plain, 1)] {
        let mut wanted = format!("events {}\n", run.len());
        for (position, (_, line)) in run.iter().enumerate() {
            wanted += &position.to_string();
            for field in line.split(' ') {
                let sides: Vec<&str> = field.split('/').collect();
                wanted += " ";
                wanted += sides[side.min(sides.len() - 1)];
            }
            wanted += "\n";
        }
        assert_eq!(text(&run_file(&bodies), rule), wanted, "by {rule:?}");
    }
}

/// The same, once a set is created.
fn check_on_a_set(run: &[(Body, &str)]) {
    check(&[&[(create(), "0 0 0")], run].concat());
}

/// Seven sleepers, each of which gives the one before it what that wants. Process 8 is awake.
fn chain_of_seven() -> Vec<(Body, &'static str)> {
    let mut run = vec![(operate(1, 0, &[(0, -1, 0)]), "-1@0 0 0")];
    for link in 1..7 {
        let array = [(link, -1, 0), (link - 1, 1, 0)];
        run.push((operate(link as u8 + 1, 0, &array), "-1@0 0 0"));
    }
    run
}

/// Semaphore 0 is at 0, and process 1 sleeps on an array that could not be undone if it did not
/// hold what it took there.
fn asleep_by_an_adjustment() -> [(Body, &'static str); 3] {
    let up = (0, 20_000, UNDO);
    [
        (set_value(8, 0, 0, 32_767), "0 0 0"),
        (operate(1, 0, &[(0, -32_767, UNDO)]), "0 0 0"),
        (operate(1, 0, &[up, (0, -20_000, 0), up, (1, -1, 0)]), "-1@3 0 0"),
    ]
}
