//! Readings put in behind the events of a run. They leave the host as it was, so their answers show
//! what it holds after each event.

use std::ops::Range;

use crate::answer::Answer;
use crate::event::Event;
use crate::known::Known;
use crate::owners::Numbers;
use crate::runfile::{self, FILE_MAX, HEAD};

/// What is asked behind each event.
pub fn all(events: &[Event], answers: &[Answer]) -> Vec<Vec<Event>> {
    let mut known = Known::default();
    let mut questions = Vec::with_capacity(events.len());
    for (event, answer) in events.iter().zip(answers) {
        known.note(event, answer);
        questions.push(readings(&known));
    }
    questions
}

/// A reading of each live set, by a process that is awake and user 0. Where nobody awake is, one is
/// made user 0 before them, and gets its numbers back behind them. Where all sleep, nobody can ask.
fn readings(known: &Known) -> Vec<Event> {
    let process = match known.awake() {
        Some(process) => process,
        None => return Vec::new(),
    };
    let read = |identifier| Event::ReadAll { process, identifier };
    let mut readings: Vec<Event> = known.owners.live().map(read).collect();
    let Numbers { user, group } = known.owners.numbers(process);
    if user != 0 && !readings.is_empty() {
        readings.insert(0, Event::ActAs { process, user: 0, group });
        readings.push(Event::ActAs { process, user, group });
    }
    readings
}

/// Parts of the run whose questions fit into one run file each, together with all the events up to
/// their last one. Behind the last part there is no room.
pub fn parts(events: &[Event], questions: &[Vec<Event>]) -> Vec<Range<usize>> {
    let mut ends = Vec::with_capacity(events.len());
    let mut end = HEAD;
    for event in events {
        end += runfile::size(event);
        ends.push(end);
    }
    let mut parts = Vec::new();
    let mut first = 0;
    while first < events.len() {
        let mut asked = 0;
        let fits = |&position: &usize| {
            asked += questions[position].iter().map(runfile::size).sum::<usize>();
            ends[position] + asked <= FILE_MAX
        };
        let part = first..first + (first..events.len()).take_while(fits).count();
        if part.is_empty() {
            break;
        }
        first = part.end;
        parts.push(part);
    }
    parts
}

/// The events up to the part's last one, those of the part with their questions behind them.
pub fn extended(events: &[Event], questions: &[Vec<Event>], part: Range<usize>) -> Vec<Event> {
    let mut extended = events[..part.start].to_vec();
    for position in part {
        extended.push(events[position].clone());
        extended.extend_from_slice(&questions[position]);
    }
    extended
}

#[cfg(test)]
mod tests {
    use super::*;
    use crate::{parse, print};

    fn report(code: i32, value: i32) -> Answer {
        Answer::Report { code, position: None, value, looks: 0, wakings: vec![] }
    }

    /// What is asked behind the events of a text, each of which has the code and the value beside it.
    fn asked(lines: &[(&str, i32, i32)]) -> Vec<String> {
        let text: String = lines.iter().map(|(line, ..)| format!("{line}\n")).collect();
        let events = parse::events(text.as_bytes()).expect("events");
        let answers: Vec<Answer> =
            lines.iter().map(|(_, code, value)| report(*code, *value)).collect();
        all(&events, &answers).iter().map(|questions| print::text(questions)).collect()
    }

    /// Creates of which the last one finds no slot, then a removal.
    #[test]
    fn the_answers_tell_which_sets_are_live() {
        let asked = asked(&[
            ("create 1 by=2", 0, 0),
            ("create 1 by=2", 0, 1),
            ("create 1 by=2", 28, 0),
            ("remove 1 by=2", 1, 0),
            ("remove 0 by=2", 0, 0),
            ("remove 1 by=2", 0, 0),
        ]);
        let both = "read-all 0 by=1\nread-all 1 by=1\n";
        assert_eq!(asked, ["read-all 0 by=1\n", both, both, both, "read-all 1 by=1\n", ""]);
    }

    /// Process 1 sleeps and 2 is another user, so process 3 asks.
    #[test]
    fn who_asks_is_awake_and_user_0() {
        let asked = asked(&[
            ("as 2 user=7 group=0", 0, 0),
            ("create 1 by=1", 0, 0),
            ("operate 1 set=0 0:-1", -1, 0),
            ("exit 1", 0, 0),
        ]);
        assert_eq!(asked, ["", "read-all 0 by=1\n", "read-all 0 by=3\n", "read-all 0 by=1\n"]);
    }

    /// Process 2 is the first awake, and has its numbers back behind the readings.
    #[test]
    fn where_nobody_is_user_0_one_becomes_it() {
        let mut lines: Vec<(String, i32)> =
            (1..=8).map(|process| (format!("as {process} user={process} group=9"), 0)).collect();
        lines.push(("create 1 by=8".to_string(), 0));
        lines.push(("operate 1 set=0 0:-1".to_string(), -1));
        let lines: Vec<_> = lines.iter().map(|(line, code)| (&line[..], *code, 0)).collect();
        let wanted = "as 2 user=0 group=9\nread-all 0 by=2\nas 2 user=2 group=9\n";
        assert_eq!(asked(&lines)[9], wanted);
        assert_eq!(asked(&lines)[7], "");
    }

    #[test]
    fn where_all_sleep_nobody_asks() {
        let sleeps = |process| (format!("operate {process} set=0 0:-1"), -1);
        let mut lines = vec![("create 1 by=1".to_string(), 0)];
        lines.extend((1..=8).map(sleeps));
        lines.push(("signal 9".to_string(), 3));
        lines.push(("exit 5".to_string(), 0));
        let lines: Vec<_> = lines.iter().map(|(line, code)| (&line[..], *code, 0)).collect();
        let wanted = ["read-all 0 by=8\n", "", "", "read-all 0 by=5\n"];
        assert_eq!(asked(&lines)[7..], wanted);
    }

    /// A full file leaves no room behind its last events, and each part fits.
    #[test]
    fn parts_fill_run_files() {
        let text = format!("create 1 by=1\n{}", "exit 1\n".repeat(10_920));
        let events = parse::events(text.as_bytes()).expect("as many as a file holds");
        let questions = all(&events, &vec![report(0, 0); events.len()]);
        let mut first = 0;
        for part in parts(&events, &questions) {
            assert_eq!(part.start, first);
            first = part.end;
            assert!(runfile::write(&extended(&events, &questions, part)).len() <= FILE_MAX);
        }
        let room = FILE_MAX - runfile::write(&events).len();
        assert!(room < 6 && first < events.len() && events.len() - first <= 2);
    }
}
