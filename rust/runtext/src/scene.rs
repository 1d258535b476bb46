//! What there is to tell about one event.

use crate::answer::{Answer, Semaphore, Waking};
use crate::clock;
use crate::decided;
use crate::event::Event;
use crate::known::Known;
use crate::rows::{row, wrapped};
use crate::words;

/// A live set, as the program shows it after an event.
pub struct Set {
    identifier: i32,
    semaphores: Vec<Semaphore>,
}

pub struct Scene {
    pub event: Event,
    pub line: String,
    pub answer: Answer,
    /// None where no set is live, or the program couldn't be asked.
    pub sets: Vec<Set>,
}

impl Scene {
    /// The event and its line, which has to be one of its kind.
    pub fn read(event: Event, line: String) -> Result<Scene, String> {
        let answer = Answer::read(&event, &line)
            .ok_or_else(|| format!("the line of {event:?} can't be read: {line}"))?;
        Ok(Scene { event, line, answer, sets: Vec::new() })
    }

    /// Takes the answer to a question, which can't be refused.
    pub fn note(&mut self, question: &Event, line: Option<&String>) -> Result<(), String> {
        let answer = line.and_then(|line| Answer::read(question, line));
        match (question, answer) {
            (Event::ReadAll { identifier, .. }, Some(Answer::Reading(reading)))
                if reading.code == 0 =>
            {
                self.sets.push(Set { identifier: *identifier, semaphores: reading.semaphores });
                Ok(())
            }
            (Event::ActAs { .. }, Some(answer)) if answer.code() == 0 => Ok(()),
            _ => Err(format!("no answer to {question:?}")),
        }
    }

    /// What was asked, and what came of it; what is known and the sets are from before the event.
    pub fn tell(&self, position: usize, known: &Known, before: &[Set]) -> String {
        let who = self.event.process().map(|process| known.owners.name(process));
        let event = self.event.in_words(&who.unwrap_or_default());
        let mut story = wrapped(&format!("event {position}:"), &event);
        story += &row("line", &format!("{position} {}", self.line));
        let why = self.why(known, before);
        story += &row("answer", &words::answer(&self.event, &self.answer, why));
        if let Answer::Report { wakings, .. } = &self.answer {
            for (index, waking) in wakings.iter().enumerate() {
                let why = self.why_woken(waking, &wakings[index + 1..], known);
                story += &row("wakes", &words::waking(waking, why));
            }
        }
        story + &self.until(known)
    }

    /// Why the event is denied, the operation that the answer names decided, or a time is refused.
    fn why(&self, known: &Known, before: &[Set]) -> Option<String> {
        match (&self.event, self.answer.code()) {
            (event, code @ (1 | 13)) => known.owners.why_denied(event, code),
            (Event::Operate { identifier, operations, .. }, code) => {
                let before = |number| value(before, *identifier, number);
                decided::why(code, self.answer.position()?, operations, before)
            }
            (Event::Clock { time }, 22) => clock::why_refused(*time, known.sleepers.time),
            _ => None,
        }
    }

    /// Why the operation that the waking names decided, or after how long the sleeper gave up. A
    /// look came before the later wakings, so what they add is taken back.
    fn why_woken(&self, waking: &Waking, later: &[Waking], known: &Known) -> Option<String> {
        let call = known.sleepers.call(waking.process)?;
        let before = |number| {
            let after = value(&self.sets, call.identifier, number)?;
            Some(after - known.sleepers.applied(later, call.identifier, number)?)
        };
        match (&self.event, waking.position) {
            (_, Some(position)) => decided::why(waking.code, position, call.operations, before),
            (Event::Clock { time }, None) => clock::gave_up(call.start, call.wait?, *time),
            _ => None,
        }
    }

    /// When the wait of a call that went to sleep is over.
    fn until(&self, known: &Known) -> String {
        match (&self.event, self.answer.code()) {
            (Event::Operate { wait: Some(wait), .. }, -1) => {
                row("until", &format!("{} ms", clock::end(known.sleepers.time, *wait)))
            }
            _ => String::new(),
        }
    }

    /// What the program shows after the event, or why it shows nothing.
    pub fn tell_after(&self, known: &Known) -> String {
        if !self.sets.is_empty() {
            return self.values() + &self.waits();
        }
        let words = if known.owners.live().next().is_none() {
            "no live set"
        } else if known.awake().is_none() {
            "not shown: all processes are asleep, and none can read"
        } else {
            "not shown: the run file has no room for more readings"
        };
        row("values", words)
    }

    /// The values of each live set.
    fn values(&self) -> String {
        let mut values = String::new();
        for Set { identifier, semaphores } in &self.sets {
            let numbers: Vec<String> = semaphores.iter().map(|one| one.value.to_string()).collect();
            values += &row("values", &format!("set {identifier}: {}", numbers.join(" ")));
        }
        values
    }

    /// Who waits, where somebody does.
    fn waits(&self) -> String {
        let mut rows = String::new();
        for Set { identifier, semaphores } in &self.sets {
            for (number, semaphore) in semaphores.iter().enumerate() {
                if semaphore.waits.any() {
                    let waiting = words::waiting(semaphore.waits);
                    let place = format!("set {identifier}, semaphore {number}");
                    rows += &row("waits", &format!("{place}: {waiting}"));
                }
            }
        }
        rows
    }
}

/// The value of a semaphore, if its set is shown.
fn value(sets: &[Set], identifier: i32, number: u16) -> Option<i32> {
    let set = sets.iter().find(|set| set.identifier == identifier)?;
    set.semaphores.get(usize::from(number)).map(|semaphore| semaphore.value)
}

#[cfg(test)]
mod tests {
    use super::*;
    use crate::parse;

    /// An event as in a text, its line without the position, and the values of set 0 after it, if
    /// the program was asked.
    fn scene(text: &str, line: &str, values: &[i32]) -> Scene {
        let mut events =
            parse::events(format!("{text}\nread-all 0 by=1").as_bytes()).expect("events");
        let mut scene = Scene::read(events.remove(0), line.to_string()).expect("a line");
        if !values.is_empty() {
            let shown: String = values.iter().map(|value| format!(" {value} 0 0")).collect();
            scene.note(&events[0], Some(&format!("0{shown}"))).expect("an answer");
        }
        scene
    }

    /// The rows of the last scene, the others having come before, that have this title; each in one
    /// line.
    fn rows(scenes: &[Scene], title: &str) -> String {
        let mut known = Known::default();
        let mut before: &[Set] = &[];
        let mut told = String::new();
        for scene in scenes {
            told = scene.tell(0, &known, before);
            known.note(&scene.event, &scene.answer);
            told += &scene.tell_after(&known);
            before = &scene.sets;
        }
        let told = told.replace(&format!("\n{:10}", ""), " ");
        let rows = told.lines().filter_map(|row| row.strip_prefix(&format!("  {title:<8}")));
        rows.collect::<Vec<_>>().join("\n")
    }

    #[test]
    fn a_call_that_stops_says_where_and_why() {
        let told = |text, line, values: &[i32]| {
            rows(&[scene("time 0", "0 0 0", values), scene(text, line, &[])], "answer")
        };
        let wanted = "asleep (-1) at operation 1: semaphore 1 has value 0, the call wants 1";
        assert_eq!(told("operate 1 set=0 0:+1 1:-1", "-1@1 0 0", &[0, 0]), wanted);
        let wanted = "refused: ERANGE (34) at operation 1: \
            semaphore 0 has value 32767, plus 1 is above 32767";
        assert_eq!(told("operate 1 set=0 1:0 0:+1", "34@1 0 0", &[32_767, 0]), wanted);
        let wanted = "asleep (-1) at operation 1";
        assert_eq!(told("operate 1 set=0 0:+1 1:-1", "-1@1 0 0", &[]), wanted);
    }

    #[test]
    fn where_no_values_are_shown_it_says_why() {
        let mut scenes = vec![scene("time 0", "0 0 0", &[])];
        assert_eq!(rows(&scenes, "values"), "no live set");
        scenes.push(scene("create 1 by=1", "0 0 0", &[]));
        let wanted = "not shown: the run file has no room for more readings";
        assert_eq!(rows(&scenes, "values"), wanted);
        for process in 1..=8 {
            let call = format!("operate {process} set=0 0:-1");
            scenes.push(scene(&call, "-1@0 0 0", &[]));
        }
        let wanted = "not shown: all processes are asleep, and none can read";
        assert_eq!(rows(&scenes, "values"), wanted);
    }

    /// Process 3 is looked at behind 2 and before 4; the values after the event are those that 4
    /// left.
    #[test]
    fn a_waking_is_told_with_the_values_of_its_look() {
        let mut scenes = vec![
            scene("operate 2 set=0 0:-1 1:+1", "-1@0 0 0", &[0, 32_764]),
            scene("operate 3 set=0 0:-1 1:+3", "-1@0 0 0", &[0, 32_764]),
            scene("operate 4 set=0 0:-1 1:-32765", "-1@0 0 0", &[0, 32_764]),
        ];
        let line = "0 0 3 2=0 3=34@1 4=0";
        scenes.push(scene("set 0 by=8 number=0 value=2", line, &[0, 0]));
        let wanted = "process 2: done (0)\n\
            process 3: ERANGE (34) at operation 1: semaphore 1 has value 32765, plus 3 is above 32767\n\
            process 4: done (0)";
        assert_eq!(rows(&scenes, "wakes"), wanted);
        scenes.pop();
        scenes.push(scene("set 0 by=8 number=0 value=2", line, &[]));
        let wanted = "process 3: ERANGE (34) at operation 1, a value or";
        assert!(rows(&scenes, "wakes").contains(wanted));
    }

    /// The wait of process 2 is over at 1250, that of process 3 when the time is told.
    #[test]
    fn a_sleeper_that_gives_up_says_after_how_long() {
        let mut scenes = vec![
            scene("time 1000", "0 0 0", &[0]),
            scene("operate 2 set=0 wait=250 0:-1", "-1@0 0 0", &[0]),
            scene("time 1100", "0 0 0", &[0]),
            scene("operate 3 set=0 wait=250 0:-1", "-1@0 0 0", &[0]),
        ];
        assert_eq!(rows(&scenes[..2], "until"), "1250 ms");
        assert_eq!(rows(&scenes, "until"), "1350 ms");
        scenes.push(scene("time 1350", "0 0 0 2=11 3=11", &[0]));
        let wanted =
            "process 2: EAGAIN (11): gave up waiting after 250 ms, over at 1250 ms and told at 1350 ms\n\
            process 3: EAGAIN (11): gave up waiting after 250 ms";
        assert_eq!(rows(&scenes, "answer"), "done (0)");
        assert_eq!(rows(&scenes, "wakes"), wanted);
    }

    /// Nothing is made up for a sleeper that has no wait, or whose wait is not over.
    #[test]
    fn a_sleeper_that_is_not_due_only_gave_up() {
        for call in ["operate 1 set=0 0:-1", "operate 1 set=0 wait=11 0:-1"] {
            let scenes = [scene(call, "-1@0 0 0", &[0]), scene("time 10", "0 0 0 1=11", &[0])];
            assert_eq!(rows(&scenes, "wakes"), "process 1: EAGAIN (11), gave up waiting");
        }
    }

    #[test]
    fn a_refused_time_says_why() {
        let refused = |text| {
            let scenes = [scene("time 1000", "0 0 0", &[]), scene(text, "22 0 0", &[])];
            rows(&scenes, "answer")
        };
        let wanted = "refused: EINVAL (22): it is before 1000 ms, the time told last";
        assert_eq!(refused("time 999"), wanted);
        let wanted = "refused: EINVAL (22): it is above 9223372036854775807 ms, the largest time";
        assert_eq!(refused("time 9223372036854775808"), wanted);
        assert_eq!(refused("time 1000"), "refused: EINVAL (22)");
    }

    /// All values are set before the first look, which is told with them.
    #[test]
    fn a_setting_shows_who_woke_and_what_it_left() {
        let scenes = [
            scene("operate 2 set=0 0:-1 1:+3", "-1@0 0 0", &[0, 0]),
            scene("operate 3 set=0 0:-2", "-1@0 0 0", &[0, 0]),
            scene("set-all 0 by=8 values=2,32765", "0 0 2 2=34@1 3=0", &[0, 32_765]),
        ];
        let wanted = "process 2: ERANGE (34) at operation 1: \
            semaphore 1 has value 32765, plus 3 is above 32767\nprocess 3: done (0)";
        assert_eq!(rows(&scenes, "wakes"), wanted);
        assert_eq!(rows(&scenes, "answer"), "done (0), 2 looks");
        assert_eq!(rows(&scenes, "values"), "set 0: 0 32765");
    }

    /// A sleeper whose call is not known, since the program has not told of it.
    #[test]
    fn of_an_unknown_sleeper_it_says_where() {
        let set_value = scene("set 0 by=8 number=0 value=1", "0 0 1 1=11@1", &[1, 1]);
        let wanted = "process 1: EAGAIN (11) at operation 1, it stops now where nowait is given";
        assert_eq!(rows(&[set_value], "wakes"), wanted);
    }
}
