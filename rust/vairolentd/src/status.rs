//! The daemon's state for people, the way `ipcs -s` shows it.

use std::fmt::Write;
use std::fs;

use crate::caller::Caller;
use crate::daemon::{Daemon, Sleeper};
use crate::seen;
use crate::sets::READ;

impl Daemon {
    /// Sets, semaphores and sleepers. Whom a set's mode does not let read, sees it in the list alone.
    pub fn status(&mut self, caller: &Caller) -> String {
        let mut text = String::new();
        self.list_sets(&mut text);
        self.list_semaphores(caller, &mut text);
        self.list_sleepers(caller, &mut text);
        text + &self.engine.record().in_words() + "\n"
    }

    fn list_sets(&self, text: &mut String) {
        let users = fs::read_to_string("/etc/passwd").unwrap_or_default();
        title(text, "Semaphore Arrays", &["key", "semid", "owner", "perms", "nsems"]);
        for set in self.sets.iter() {
            let key = format!("0x{:08x}", set.key);
            let perms = format!("{:o}", set.mode);
            let owner = name(&users, set.owner.user);
            row(text, &[key, set.identifier.to_string(), owner, perms, set.count.to_string()]);
        }
    }

    fn list_semaphores(&self, caller: &Caller, text: &mut String) {
        let columns = ["semid", "semnum", "value", "ncount", "zcount", "pid"];
        title(text, "Semaphores", &columns);
        for set in self.sets.iter().filter(|set| set.permits(caller, READ).is_ok()) {
            let shown = seen::set(self.engine.host(), set.identifier);
            for (number, semaphore) in shown.semaphores().iter().enumerate() {
                let (value, last) = (i64::from(semaphore.value), i64::from(set.lasts[number]));
                let waits = [semaphore.increase.into(), semaphore.zero.into()];
                let numbers =
                    [set.identifier.into(), number as i64, value, waits[0], waits[1], last];
                row(text, &numbers.map(|number| number.to_string()));
            }
        }
    }

    fn list_sleepers(&self, caller: &Caller, text: &mut String) {
        title(text, "Sleepers", &["pid", "semid", "semnum", "for", "ends"]);
        for sleeper in &self.sleepers {
            let set = self.sets.find(sleeper.identifier);
            if set.map_or(false, |set| set.permits(caller, READ).is_ok()) {
                let (number, what) = self.waits_for(sleeper);
                let known = self.engine.known().asleep.iter();
                let due = known.filter(|asleep| asleep.process == sleeper.number);
                let due = due.filter_map(|asleep| asleep.due()).next();
                let ends = due.map(|due| format!("in {} ms", self.clock.until(due).as_millis()));
                let [pid, semid] = [sleeper.caller.pid, sleeper.identifier].map(|n| n.to_string());
                row(text, &[pid, semid, number, what.to_string(), ends.unwrap_or("-".into())]);
            }
        }
        text.push('\n');
    }

    /// The semaphore at which a sleeper stops, and what it waits for there.
    fn waits_for(&self, sleeper: &Sleeper) -> (String, &'static str) {
        let shown = seen::set(self.engine.host(), sleeper.identifier);
        let bit = 1 << (sleeper.number - 1);
        for (number, semaphore) in shown.semaphores().iter().enumerate() {
            if semaphore.increase_mask & bit != 0 {
                return (number.to_string(), "increase");
            } else if semaphore.zero_mask & bit != 0 {
                return (number.to_string(), "zero");
            }
        }
        unreachable!("a sleeper waits at one semaphore")
    }
}

fn title(text: &mut String, title: &str, columns: &[&str]) {
    let _ = write!(text, "\n------ {title} --------\n");
    row(text, columns);
}

fn row<T: AsRef<str>>(text: &mut String, cells: &[T]) {
    let cells: Vec<String> = cells.iter().map(|cell| format!("{:<10}", cell.as_ref())).collect();
    let _ = writeln!(text, "{}", cells.join(" ").trim_end());
}

/// A user's name, or its number where it has none.
fn name(users: &str, user: u32) -> String {
    let of_user = |line: &&str| line.split(':').nth(2) == Some(&user.to_string());
    let name = users.lines().find(of_user).and_then(|line| line.split(':').next());
    name.map_or_else(|| user.to_string(), str::to_string)
}

#[cfg(test)]
mod tests {
    use crate::trial::*;
    use vairolent::Operation;

    /// Rows of sets, semaphores and sleepers.
    fn rows(text: &str) -> Vec<usize> {
        let lists = text.split("------ ").filter(|list| list.contains("semid"));
        lists.map(|list| list.lines().skip(2).take_while(|line| !line.is_empty()).count()).collect()
    }

    #[test]
    fn a_hidden_set_is_in_the_list_alone() {
        let mut trial = Trial::new();
        let [owner, other] = [caller(1, 7, &[9]), caller(2, 8, &[8])];
        let [hidden, _] = [0o600, 0o604].map(|mode| trial.make(&owner, mode));
        assert_eq!(trial.operate(&owner, hidden, &[Operation::new(1, -1)]), None);
        assert_eq!(rows(&trial.daemon.status(&owner)), [2, 4, 1]);
        assert_eq!(rows(&trial.daemon.status(&other)), [2, 2, 0]);
    }
}
