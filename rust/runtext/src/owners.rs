//! Users, groups and modes, as the answers tell: the numbers of the processes, whose each live set
//! is, and why a caller is denied.

use std::collections::BTreeMap;

use crate::answer::Answer;
use crate::event::Event;
use crate::mode::{self, ALTER, READ};

/// The numbers of a process, 0 at first.
#[derive(Clone, Copy, Debug, Default, PartialEq, Eq)]
pub struct Numbers {
    pub user: u32,
    pub group: u32,
}

/// The numbers that the creator of a set had, and its mode.
struct Owned {
    owner: u32,
    group: u32,
    mode: u16,
}

#[derive(Default)]
pub struct Owners {
    processes: BTreeMap<u8, Numbers>,
    sets: BTreeMap<i32, Owned>,
}

impl Owners {
    /// Keeps what an event did that is done.
    pub fn note(&mut self, event: &Event, answer: &Answer) {
        match (event, answer) {
            (&Event::Create { process, mode, .. }, Answer::Report { code: 0, value, .. }) => {
                let Numbers { user: owner, group } = self.numbers(process);
                self.sets.insert(*value, Owned { owner, group, mode });
            }
            (Event::Remove { identifier, .. }, Answer::Report { code: 0, .. }) => {
                self.sets.remove(identifier);
            }
            (&Event::ActAs { process, user, group }, Answer::Report { code: 0, .. }) => {
                self.processes.insert(process, Numbers { user, group });
            }
            _ => {}
        }
    }

    pub fn numbers(&self, process: u8) -> Numbers {
        self.processes.get(&process).copied().unwrap_or_default()
    }

    /// A process by name, with its numbers where they aren't those of the start.
    pub fn name(&self, process: u8) -> String {
        match self.numbers(process) {
            Numbers { user: 0, group: 0 } => format!("process {process}"),
            Numbers { user, group } => format!("process {process} (user {user}, group {group})"),
        }
    }

    /// The identifiers of the live sets.
    pub fn live(&self) -> impl Iterator<Item = i32> + '_ {
        self.sets.keys().copied()
    }

    /// Why the event is denied with this code. Nothing is said where the numbers lead elsewhere.
    pub fn why_denied(&self, event: &Event, code: i32) -> Option<String> {
        let caller = self.numbers(event.process()?);
        let set = self.sets.get(&event.identifier()?)?;
        match code {
            _ if caller.user == 0 => None,
            1 => set.why_kept(caller),
            13 => set.why_closed(caller, event.needs()),
            _ => None,
        }
    }
}

impl Owned {
    fn why_kept(&self, caller: Numbers) -> Option<String> {
        let owner = self.owner;
        let words =
            format!("the set is user {owner}'s, and only its owner and user 0 may remove it");
        Some(words).filter(|_| caller.user != owner)
    }

    /// The class of the caller denies what it needs; one class only is asked.
    fn why_closed(&self, caller: Numbers, needed: u16) -> Option<String> {
        let Owned { owner, group, mode } = *self;
        let (class, bits) = if caller.user == owner {
            ("its owner", mode >> 6)
        } else if caller.group == group {
            ("its group", mode >> 3)
        } else {
            ("others", mode)
        };
        let denied = match needed & !bits {
            0 => return None,
            READ => "read",
            ALTER => "alter",
            _ => "read or alter",
        };
        let bits = mode::class(bits);
        Some(format!(
            "the set is user {owner}'s of group {group}, and {class} may not {denied} ({bits})"
        ))
    }
}

#[cfg(test)]
mod tests {
    use super::*;
    use crate::parse;

    fn events(text: &str) -> Vec<Event> {
        parse::events(text.as_bytes()).expect("events")
    }

    /// What is known after these events, which are all done; a set that is created is set 0.
    fn known(text: &str) -> Owners {
        let mut owners = Owners::default();
        for event in events(text) {
            let answer = Answer::read(&event, "0 0 0").expect("a line");
            owners.note(&event, &answer);
        }
        owners
    }

    fn why(owners: &Owners, line: &str, code: i32) -> String {
        owners.why_denied(&events(line)[0], code).unwrap_or_default()
    }

    #[test]
    fn processes_by_name() {
        let mut owners = known("as 1 user=0 group=9\nas 2 user=7 group=0\nexit 2");
        assert_eq!(owners.name(1), "process 1 (user 0, group 9)");
        assert_eq!(owners.name(2), "process 2 (user 7, group 0)");
        assert_eq!(owners.name(3), "process 3");
        let refused = events("as 2 user=0 group=0").remove(0);
        owners.note(&refused, &Answer::read(&refused, "16 0 0").expect("a line"));
        assert_eq!(owners.numbers(2), Numbers { user: 7, group: 0 });
    }

    /// The owner is in the group too: its own bits alone decide.
    #[test]
    fn the_class_that_denies() {
        let owners = known(
            "as 1 user=7 group=9\nas 2 user=8 group=9\nas 3 user=8 group=8\n\
            create 1 by=1 mode=rw-r-----",
        );
        let of = "the set is user 7's of group 9, and";
        let wanted = format!("{of} its group may not alter (r--)");
        assert_eq!(why(&owners, "operate 2 set=0 0:-1", 13), wanted);
        assert_eq!(why(&owners, "operate 2 set=0 0:0 0:-1", 13), wanted);
        assert_eq!(why(&owners, "set 0 by=2 number=0 value=1", 13), wanted);
        assert_eq!(why(&owners, "set-all 0 by=2 values=1", 13), wanted);
        let wanted = format!("{of} others may not read (---)");
        assert_eq!(why(&owners, "query 0 by=3 number=0", 13), wanted);
        assert_eq!(why(&owners, "read-all 0 by=3", 13), wanted);
        let wanted = format!("{of} others may not read or alter (---)");
        assert_eq!(why(&owners, "operate 3 set=0 0:0 0:-1", 13), wanted);
        let owners = known("as 1 user=7 group=9\ncreate 1 by=1 mode=r-xrw-rw-");
        let wanted = format!("{of} its owner may not alter (r-x)");
        assert_eq!(why(&owners, "operate 1 set=0 0:-1", 13), wanted);
    }

    #[test]
    fn a_set_is_its_creators_and_who_asks_is_who_it_is_now() {
        let owners = known("as 1 user=7 group=9\ncreate 1 by=1 mode=600\nas 1 user=8 group=9");
        let wanted = "the set is user 7's of group 9, and its group may not read (---)";
        assert_eq!(why(&owners, "read-all 0 by=1", 13), wanted);
        let wanted = "the set is user 7's, and only its owner and user 0 may remove it";
        assert_eq!(why(&owners, "remove 0 by=1", 1), wanted);
    }

    #[test]
    fn nothing_is_said_where_the_numbers_lead_elsewhere() {
        let owners = known("as 1 user=7 group=9\ncreate 1 by=1 mode=400");
        for (line, code) in [
            ("read-all 0 by=1", 13),
            ("remove 0 by=1", 1),
            ("set 0 by=2 number=0 value=1", 13),
            ("remove 0 by=2", 1),
            ("set 4 by=1 number=0 value=1", 13),
            ("set 0 by=1 number=0 value=1", 22),
            ("as 1 user=0 group=0", 13),
            ("signal 1", 1),
        ] {
            assert_eq!(why(&owners, line, code), "", "{line} {code}");
        }
        let owners = known("create 1 by=1 mode=0\nremove 0 by=1\nas 1 user=7 group=9");
        assert_eq!(why(&owners, "read-all 0 by=1", 13), "");
    }
}
