//! Answers in words.

use crate::answer::{Answer, Semaphore, Waits, Waking};
use crate::codes;
use crate::count::counted;
use crate::event::Event;

/// The answer by the name of its code, with all else that the line has but its wakings, and with
/// why it is so, where that is known.
pub fn answer(event: &Event, answer: &Answer, why: Option<String>) -> String {
    let meaning = event.why_refused(answer.code(), answer.position());
    let mut words = coded(answer.code(), answer.position(), why, meaning);
    if answer.code() > 0 {
        words = format!("refused: {words}");
    }
    match answer {
        Answer::Report { code, value, looks, .. } => {
            match event {
                Event::Create { .. } if *code == 0 => {
                    words += &format!(", the set's identifier is {value}");
                }
                _ if *value != 0 => words += &format!(", value {value}"),
                _ => {}
            }
            if *looks != 0 || (*code == 0 && event.looks()) {
                words += &format!(", {}", counted(*looks, "look"));
            }
        }
        Answer::State(state) if state.code == 0 => {
            words += &format!(", value {}, last process {}", state.value, state.last);
            words += &format!(", waiting {}", waiting(state.waits));
        }
        Answer::State(_) => {}
        Answer::Reading(reading) => words += &read(&reading.semaphores),
    }
    words
}

/// How many wait at a semaphore.
pub fn waiting(waits: Waits) -> String {
    format!("{} for increase, {} for zero", waits.for_increase, waits.for_zero)
}

/// The semaphores of a set, with who waits where somebody does.
fn read(semaphores: &[Semaphore]) -> String {
    let mut words = String::new();
    for (number, semaphore) in semaphores.iter().enumerate() {
        words += &format!("; semaphore {number}: value {}", semaphore.value);
        if semaphore.waits.any() {
            words += &format!(", waiting {}", waiting(semaphore.waits));
        }
    }
    words
}

/// The waking, with why it came, where that is known.
pub fn waking(waking: &Waking, why: Option<String>) -> String {
    let meaning = codes::why_ended(waking.code, waking.position);
    let words = coded(waking.code, waking.position, why, meaning);
    format!("process {}: {words}", waking.process)
}

/// A code by its name, the operation that decided and why, and what the code means here.
fn coded(code: i32, position: Option<usize>, why: Option<String>, meaning: Option<&str>) -> String {
    let mut words = codes::name(code);
    if let Some(position) = position {
        words += &format!(" at operation {position}");
    }
    match (why, meaning) {
        // Why it stopped doesn't say why it may not sleep.
        (Some(why), Some(meaning)) if code == 11 && position.is_some() => {
            format!("{words}: {why}; {meaning}")
        }
        (Some(why), _) => format!("{words}: {why}"),
        (None, Some(meaning)) => format!("{words}, {meaning}"),
        (None, None) => words,
    }
}

#[cfg(test)]
mod tests {
    use super::*;
    use crate::codes::OUT_OF_RANGE;
    use crate::parse;

    /// An event as in a text.
    fn event(line: &str) -> Event {
        parse::events(line.as_bytes()).expect("an event").remove(0)
    }

    fn told(event: &Event, code: i32, position: Option<usize>, why: &str) -> String {
        let report = Answer::Report { code, position, value: 0, looks: 0, wakings: vec![] };
        answer(event, &report, Some(why.to_string()).filter(|why| !why.is_empty()))
    }

    #[test]
    fn answers_with_the_operation_that_decided() {
        let operate = event("operate 1 set=0");
        let nowait = "it would have to sleep, but nowait is given";
        for (code, position, why, wanted) in [
            (-1, None, "", "asleep (-1)".to_string()),
            (-1, Some(0), "", "asleep (-1) at operation 0".to_string()),
            (-1, Some(31), "so", "asleep (-1) at operation 31: so".to_string()),
            (11, None, "", format!("refused: EAGAIN (11), {nowait}")),
            (11, Some(1), "", format!("refused: EAGAIN (11) at operation 1, {nowait}")),
            (11, Some(1), "so", format!("refused: EAGAIN (11) at operation 1: so; {nowait}")),
            (34, Some(2), "", format!("refused: ERANGE (34) at operation 2, {OUT_OF_RANGE}")),
            (34, Some(2), "so", "refused: ERANGE (34) at operation 2: so".to_string()),
        ] {
            assert_eq!(told(&operate, code, position, why), wanted);
        }
        let set_value = event("set 0 by=1 number=0 value=40000");
        let wanted = "refused: ERANGE (34), the value isn't 0 to 32767";
        assert_eq!(told(&set_value, 34, None, ""), wanted);
    }

    /// The operation that stopped tells whether nowait or a wait of 0 kept the call from sleeping.
    #[test]
    fn calls_that_may_not_wait() {
        let operate = event("operate 1 set=0 wait=0 0:-1/nowait 1:-1");
        for (position, meaning) in [(0, "nowait is given"), (1, "may not wait")] {
            let wanted = format!(
                "refused: EAGAIN (11) at operation {position}: so; it would have to sleep, but {meaning}"
            );
            assert_eq!(told(&operate, 11, Some(position), "so"), wanted);
        }
        let operate = event("operate 1 set=0 wait=1 0:-1/nowait");
        assert!(told(&operate, 11, Some(0), "").ends_with("nowait is given"));
    }

    #[test]
    fn times_that_are_told_or_refused() {
        let time = event("time 900");
        assert_eq!(told(&time, 0, None, ""), "done (0)");
        assert_eq!(told(&time, 22, None, "so"), "refused: EINVAL (22): so");
    }

    #[test]
    fn settings_that_are_done_or_refused() {
        let set_all = event("set-all 0 by=1 values=1,40000");
        assert_eq!(told(&set_all, 0, None, ""), "done (0), 0 looks");
        let wanted = "refused: ERANGE (34), a value isn't 0 to 32767";
        assert_eq!(told(&set_all, 34, None, ""), wanted);
        let wanted = "refused: EINVAL (22), \
            no live set has this identifier, or it has another number of semaphores";
        assert_eq!(told(&set_all, 22, None, ""), wanted);
    }

    /// Who asks is named by all but the last three; a mode is asked by the first five.
    #[test]
    fn callers_that_are_refused() {
        let text = "operate 1 set=0 0:-1\nset 0 by=1 number=0 value=1\nquery 0 by=1 number=0\n\
            set-all 0 by=1 values=1\nread-all 0 by=1\ncreate 1 by=1\nremove 0 by=1\n\
            as 1 user=7 group=9\nsignal 1\nexit 1\ntime 1";
        let events = parse::events(text.as_bytes()).expect("events");
        for (code, name, meaning, gives) in [
            (1, "EPERM", "only the set's owner and user 0 may remove it", 6..7),
            (3, "ESRCH", "no such process", 0..10),
            (13, "EACCES", "the set's mode doesn't permit it", 0..5),
            (16, "EBUSY", "the process is asleep", 0..8),
        ] {
            for (index, event) in events.iter().enumerate() {
                let alone = format!("refused: {name} ({code})");
                let words = format!("{alone}, {meaning}");
                let wanted = if gives.contains(&index) { &words } else { &alone };
                assert_eq!(&told(event, code, None, ""), wanted, "{event:?}");
                assert_eq!(told(event, code, None, "so"), format!("{alone}: so"));
            }
        }
    }

    #[test]
    fn creates_that_are_refused() {
        for (line, wanted) in [
            ("create 0 by=1 mode=1000", "the count isn't 1 to 8"),
            ("create 9 by=1", "the count isn't 1 to 8"),
            ("create 8 by=1 mode=1000", "the mode is above 777"),
        ] {
            assert_eq!(told(&event(line), 22, None, ""), format!("refused: EINVAL (22), {wanted}"));
        }
    }

    /// Who waits is told only where somebody does.
    #[test]
    fn readings_semaphore_by_semaphore() {
        let read_all = event("read-all 4 by=1");
        for (line, wanted) in [
            ("0 7 0 0", "done (0); semaphore 0: value 7"),
            (
                "0 1 0 2 0 3 0 32767 0 0",
                "done (0); semaphore 0: value 1, waiting 0 for increase, 2 for zero; \
                semaphore 1: value 0, waiting 3 for increase, 0 for zero; \
                semaphore 2: value 32767",
            ),
            ("22", "refused: EINVAL (22), no live set has this identifier"),
        ] {
            let reading = Answer::read(&read_all, line).expect("a line");
            assert_eq!(answer(&read_all, &reading, None), wanted);
        }
    }

    #[test]
    fn wakings_with_the_operation_that_decided() {
        let nowait = "it stops now where nowait is given";
        for (code, position, why, wanted) in [
            (0, None, None, "done (0)".to_string()),
            (4, None, None, "EINTR (4), by the signal".to_string()),
            (11, Some(1), None, format!("EAGAIN (11) at operation 1, {nowait}")),
            (11, Some(1), Some("so"), format!("EAGAIN (11) at operation 1: so; {nowait}")),
            (11, None, None, "EAGAIN (11), gave up waiting".to_string()),
            (11, None, Some("so"), "EAGAIN (11): so".to_string()),
            (34, Some(2), None, format!("ERANGE (34) at operation 2, {OUT_OF_RANGE}")),
            (34, Some(31), Some("so"), "ERANGE (34) at operation 31: so".to_string()),
        ] {
            let words = waking(&Waking { process: 3, code, position }, why.map(str::to_string));
            assert_eq!(words, format!("process 3: {wanted}"));
        }
    }
}
