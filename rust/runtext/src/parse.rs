//! From a text to the events of a run.
//!
//! One event a line; blank lines are skipped, and a comment goes from `#` to the end of its line.
//! Words are parted by blanks: the first is that of the event's kind, then come its fields in their
//! order, some behind a name as in `set=`. A field is a number, but for operations, a mode and the
//! values of a whole set:
//!
//! ```text
//! operation = number ":" amount ["/" flag {"," flag}]
//! flag      = "undo" | "nowait" | "0x" hexadecimal digits
//! mode      = nine letters as in "rwxrwxrwx", each of them or "-" | octal digits
//! values    = "none" | value {"," value}
//! ```
//!
//! A mode left out is `rw-rw-rw-`, and an operate without `wait=` may sleep for ever. Numbers are
//! decimal and go as far as their fields in the body; an amount may have a plus.

use crate::event::{Event, KINDS};
use crate::field::Field;
use crate::mistake::Mistake;
use crate::mode;
use crate::operation::{self, NUMBER};
use crate::runfile::{self, FILE_MAX, HEAD};
use crate::scan::{list, Words};
use crate::values;

const COUNT: &str = "a count of semaphores, 0 to 255";
const PROCESS: &str = "a process, 0 to 255";
const IDENTIFIER: &str = "an identifier, -2147483648 to 2147483647";
const VALUE: &str = "a value, -2147483648 to 2147483647";
const WAIT: &str = "a wait in milliseconds, 0 to 4294967295";
const USER: &str = "a user, 0 to 4294967295";
const GROUP: &str = "a group, 0 to 4294967295";
const TIME: &str = "a time in milliseconds, 0 to 18446744073709551615";
const END: &str = "the end of the line";
const MODE_OR_END: &str = "mode= or the end of the line";

/// The events of a text, which fit into one run file.
pub fn events(text: &[u8]) -> Result<Vec<Event>, Mistake> {
    let mut events = Vec::new();
    let mut size = HEAD;
    for (index, line) in characters(text)?.lines().enumerate() {
        let on_line = |mistake| Mistake { line: index + 1, ..mistake };
        if let Some(event) = event(line).map_err(on_line)? {
            size += runfile::size(&event);
            if size > FILE_MAX {
                return Err(on_line(too_long(size)));
            }
            events.push(event);
        }
    }
    Ok(events)
}

fn too_long(size: usize) -> Mistake {
    let expected = format!("a run of at most {FILE_MAX} bytes");
    Mistake { line: 0, column: 1, expected, found: format!("{size} with this event") }
}

fn characters(text: &[u8]) -> Result<&str, Mistake> {
    std::str::from_utf8(text).map_err(|error| {
        let (good, bad) = text.split_at(error.valid_up_to());
        let before = String::from_utf8_lossy(good);
        let last = before.rsplit('\n').next().unwrap_or_default();
        Mistake {
            line: before.matches('\n').count() + 1,
            column: last.chars().count() + 1,
            expected: "text in UTF-8".to_string(),
            found: format!("the byte {:#04x}", bad[0]),
        }
    })
}

/// The event of a line, if there is one.
fn event(line: &str) -> Result<Option<Event>, Mistake> {
    let mut words = Words::of(line);
    let word = match words.next() {
        None => return Ok(None),
        Some(word) => word,
    };
    let kind = KINDS.iter().find(|kind| kind.word == word.text);
    let mut event = kind.ok_or_else(|| word.mistake(&kinds()))?.blank.clone();
    fill_in(&mut event, &mut words)?;
    Ok(Some(event))
}

/// Reads the fields of an event, and the end of its line.
fn fill_in(event: &mut Event, words: &mut Words) -> Result<(), Mistake> {
    let mut end = END;
    for (name, field) in event.in_text() {
        match field {
            Field::Count(count) => *count = words.number(name, COUNT)?,
            Field::Process(process) => *process = words.number(name, PROCESS)?,
            Field::Identifier(identifier) => *identifier = words.number(name, IDENTIFIER)?,
            Field::Number(number) => *number = words.number(name, NUMBER)?,
            Field::Value(value) => *value = words.number(name, VALUE)?,
            Field::User(user) => *user = words.number(name, USER)?,
            Field::Group(group) => *group = words.number(name, GROUP)?,
            Field::Time(time) => *time = words.number(name, TIME)?,
            Field::Wait(wait) => {
                *wait = words.option(name).map(|word| word.number(WAIT)).transpose()?;
            }
            Field::Values(values) => {
                *values = values::parse(words.field(name, values::EXPECTED)?)?;
            }
            Field::Operations(operations) => {
                *operations = list(&mut *words, operation::parse, "operations")?;
            }
            Field::Mode(mode) => match words.option(name) {
                Some(word) => *mode = mode::parse(word)?,
                None => end = MODE_OR_END,
            },
        }
    }
    words.end(end)
}

/// The words of all kinds, as in `a, b or c`.
fn kinds() -> String {
    let mut words: Vec<&str> = KINDS.iter().map(|kind| kind.word).collect();
    words.dedup();
    let last = words.pop().unwrap_or_default();
    format!("{} or {last}", words.join(", "))
}

#[cfg(test)]
mod tests {
    use super::*;
    use crate::operation::{Operation, NOWAIT, UNDO};

    fn mistake(text: &str) -> String {
        events(text.as_bytes()).expect_err("a mistake").to_string()
    }

    #[test]
    fn every_event_with_every_field() {
        let text = "# A comment, and a blank line.\n\n\
            \tsignal 0 # here too\r\n\
            operate 1 set=0 0:-1 1:+3/undo 2:0/nowait,undo#\n\
            operate 255 set=-2147483648\n\
            operate 2 set=4 wait=0 0:-1\noperate 0 set=-1 wait=4294967295\n\
            time 0\ntime 18446744073709551615\n\
            set 2147483647 by=3 number=65535 value=-2147483648\n\
            remove -1 by=4\nexit 9\nquery 4 by=5 number=7\n\
            set-all -4 by=6 values=1,-2147483648,32768\nset-all 0 by=7 values=none\n\
            read-all 5 by=8";
        let operation = |number, amount, flags| Operation { number, amount, flags };
        let operate = |process, identifier, wait, operations| Event::Operate {
            process,
            identifier,
            wait,
            operations,
        };
        let operations =
            vec![operation(0, -1, 0), operation(1, 3, UNDO), operation(2, 0, NOWAIT | UNDO)];
        let wanted = [
            Event::Signal { process: 0 },
            operate(1, 0, None, operations),
            operate(255, i32::MIN, None, vec![]),
            operate(2, 4, Some(0), vec![operation(0, -1, 0)]),
            operate(0, -1, Some(u32::MAX), vec![]),
            Event::Clock { time: 0 },
            Event::Clock { time: u64::MAX },
            Event::SetValue { process: 3, identifier: i32::MAX, number: 65_535, value: i32::MIN },
            Event::Remove { process: 4, identifier: -1 },
            Event::Exit { process: 9 },
            Event::Query { process: 5, identifier: 4, number: 7 },
            Event::SetAll { process: 6, identifier: -4, values: vec![1, i32::MIN, 32_768] },
            Event::SetAll { process: 7, identifier: 0, values: vec![] },
            Event::ReadAll { process: 8, identifier: 5 },
        ];
        assert_eq!(events(text.as_bytes()).as_deref(), Ok(&wanted[..]));
    }

    #[test]
    fn modes_users_and_groups() {
        let text = "create 1 by=2 mode=rw-r----x\ncreate 255 by=0\ncreate 0 by=255 mode=177777\n\
            as 3 user=7 group=9\nas 255 user=4294967295 group=0";
        let wanted = [
            Event::Create { process: 2, count: 1, mode: 0o641 },
            Event::Create { process: 0, count: 255, mode: 0o666 },
            Event::Create { process: 255, count: 0, mode: u16::MAX },
            Event::ActAs { process: 3, user: 7, group: 9 },
            Event::ActAs { process: 255, user: u32::MAX, group: 0 },
        ];
        assert_eq!(events(text.as_bytes()).as_deref(), Ok(&wanted[..]));
    }

    /// Texts, each with the place of its mistake, what was expected there and what was found.
    fn have_mistakes(texts: &[(&str, &str, &str, &str)]) {
        for (text, place, expected, found) in texts {
            assert_eq!(mistake(text), format!("{place}: expected {expected}, found {found}"));
        }
    }

    #[test]
    fn mistakes_have_line_column_and_what_was_expected() {
        let kinds =
            "create, operate, set, remove, signal, exit, query, time, set-all, read-all or as";
        let amount = "an amount, -32768 to 32767";
        let number = format!("number= with {NUMBER}");
        let value = format!("value= with {VALUE}");
        let end = "the end of the line";
        have_mistakes(&[
            ("\n\noperate 1 set=0 0:40000", "3:19", amount, "'40000'"),
            ("opreate 1", "1:1", kinds, "'opreate'"),
            ("  remove", "1:9", IDENTIFIER, end),
            ("remove # 3", "1:7", IDENTIFIER, end),
            ("remove 2147483648", "1:8", IDENTIFIER, "'2147483648'"),
            ("exit 1 2", "1:8", END, "'2'"),
            ("signal -1", "1:8", PROCESS, "'-1'"),
            ("set 0 by=1 nr=1 value=2", "1:12", &number, "'nr=1'"),
            ("set 0 by=1 number=1", "1:20", &value, end),
            ("query 0 by=1 number=", "1:21", NUMBER, "nothing"),
            ("create 256", "1:8", COUNT, "'256'"),
            ("setall 0 values=1", "1:1", kinds, "'setall'"),
            ("read-all", "1:9", IDENTIFIER, end),
            ("read-all 0 by=1 number=1", "1:17", END, "'number=1'"),
            ("exit 1\n\u{1}", "2:1", kinds, "'\\u{1}'"),
        ]);
    }

    /// The caller stands right behind the first field, and may not be left out.
    #[test]
    fn mistakes_in_who_asks() {
        let by = format!("by= with {PROCESS}");
        let end = "the end of the line";
        have_mistakes(&[
            ("create 1", "1:9", &by, end),
            ("create 1 mode=640", "1:10", &by, "'mode=640'"),
            ("create by=1 1", "1:8", COUNT, "'by=1'"),
            ("set 0 number=1 value=2", "1:7", &by, "'number=1'"),
            ("set 0 number=1 value=2 by=1", "1:7", &by, "'number=1'"),
            ("remove 0 1", "1:10", &by, "'1'"),
            ("query 0 number=1", "1:9", &by, "'number=1'"),
            ("set-all 0 values=1", "1:11", &by, "'values=1'"),
            ("read-all 0", "1:11", &by, end),
            ("read-all 0 by=", "1:15", PROCESS, "nothing"),
            ("read-all 0 by=256", "1:15", PROCESS, "'256'"),
            ("operate 1 by=1 set=0 0:-1", "1:11", &format!("set= with {IDENTIFIER}"), "'by=1'"),
            ("signal 1 by=2", "1:10", END, "'by=2'"),
        ]);
    }

    #[test]
    fn mistakes_in_modes_users_and_groups() {
        let mode = "a mode as in rw-r----- or 640, 0 to 177777";
        let user = format!("user= with {USER}");
        let group = format!("group= with {GROUP}");
        have_mistakes(&[
            ("create 1 by=1 rw-r-----", "1:15", MODE_OR_END, "'rw-r-----'"),
            ("create 1 by=1 mode=rw-", "1:20", mode, "'rw-'"),
            ("create 1 by=1 mode=", "1:20", mode, "nothing"),
            ("create 1 by=1 mode=680", "1:20", mode, "'680'"),
            ("create 1 by=1 mode=200000", "1:20", mode, "'200000'"),
            ("create 1 by=1 mode=640 2", "1:24", END, "'2'"),
            ("create 1 by=1 read=all", "1:15", MODE_OR_END, "'read=all'"),
            ("as", "1:3", PROCESS, "the end of the line"),
            ("as 3 group=9 user=7", "1:6", &user, "'group=9'"),
            ("as 3 user=7", "1:12", &group, "the end of the line"),
            ("as 3 user=-1 group=9", "1:11", USER, "'-1'"),
            ("as 3 user=7 group=4294967296", "1:19", GROUP, "'4294967296'"),
            ("as 3 user=7 group=9 by=1", "1:21", END, "'by=1'"),
        ]);
    }

    #[test]
    fn mistakes_in_waits_and_times() {
        let set = format!("set= with {IDENTIFIER}");
        let operation = "an operation as in 0:-1 or 1:+3/undo";
        have_mistakes(&[
            ("operate 1 set=0 wait= 0:-1", "1:22", WAIT, "nothing"),
            ("operate 1 set=0 wait=4294967296 0:-1", "1:22", WAIT, "'4294967296'"),
            ("operate 1 set=0 wait=-1 0:-1", "1:22", WAIT, "'-1'"),
            ("operate 1 set=0 wait=250ms 0:-1", "1:22", WAIT, "'250ms'"),
            ("operate 1 set=0 wait=none 0:-1", "1:22", WAIT, "'none'"),
            ("operate 1 wait=250 set=0 0:-1", "1:11", &set, "'wait=250'"),
            ("operate 1 set=0 wait 250", "1:17", operation, "'wait'"),
            ("operate 1 set=0 0:-1 wait=250", "1:22", operation, "'wait=250'"),
            ("time", "1:5", TIME, "the end of the line"),
            ("time -1", "1:6", TIME, "'-1'"),
            ("time 18446744073709551616", "1:6", TIME, "'18446744073709551616'"),
            ("time 1.5", "1:6", TIME, "'1.5'"),
            ("time 1 2", "1:8", END, "'2'"),
        ]);
    }

    #[test]
    fn mistakes_in_the_values_of_a_set() {
        let named = format!("values= with {}", values::EXPECTED);
        have_mistakes(&[
            ("set-all 0 by=1", "1:15", &named, "the end of the line"),
            ("set-all 0 by=1 1,0,5", "1:16", &named, "'1,0,5'"),
            ("set-all values=1", "1:9", IDENTIFIER, "'values=1'"),
            ("set-all 0 by=1 values=", "1:23", values::EXPECTED, "nothing"),
            ("set-all 0 by=1 values=1,x", "1:25", values::EXPECTED, "'x'"),
            ("set-all 0 by=1 values=1, 2", "1:25", values::EXPECTED, "nothing"),
            ("set-all 0 by=1 values=1 2", "1:25", END, "'2'"),
        ]);
    }

    #[test]
    fn bytes_that_are_no_text() {
        let mistake = events(b"exit 1\n# \xC3\xA4\xFF").expect_err("no text");
        assert_eq!(mistake.to_string(), "2:4: expected text in UTF-8, found the byte 0xff");
    }

    #[test]
    fn as_many_operations_and_values_as_a_body_holds() {
        let operate = |operations| format!("operate 1 set=0{}", " 0:0".repeat(operations));
        let set_all = |values: usize| format!("set-all 0 by=1 values=7{}", ",7".repeat(values - 1));
        for line in [operate(255), set_all(255)] {
            assert!(events(line.as_bytes()).is_ok());
        }
        let wanted = "1:1037: expected the end of the line after 255 operations, found '0:0'";
        assert_eq!(mistake(&operate(256)), wanted);
        let wanted = "1:533: expected the end of the line after 255 values, found '7'";
        assert_eq!(mistake(&set_all(256)), wanted);
    }

    /// Of events with six bytes each 10,922 fit.
    #[test]
    fn as_many_events_as_a_file_holds() {
        assert!(events("exit 1\n".repeat(10_922).as_bytes()).is_ok());
        let wanted = "10923:1: expected a run of at most 65535 bytes, found 65540 with this event";
        assert_eq!(mistake(&"exit 1\n".repeat(10_923)), wanted);
    }
}
