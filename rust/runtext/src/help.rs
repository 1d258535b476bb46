//! The help, with the events as they are known.

use crate::event::{Kind, KINDS};
use crate::field::Field;

/// Columns between the form of an event and what it is.
const GAP: usize = 4;

pub fn text() -> String {
    include_str!("help.txt").replace("{events}\n", &events())
}

fn events() -> String {
    let forms: Vec<String> = KINDS.iter().map(form).collect();
    let width = GAP + forms.iter().map(String::len).max().unwrap_or(0);
    let line = |(form, kind): (&String, &Kind)| format!("  {form:width$}{}", kind.about);
    let lines = forms.iter().zip(&KINDS).map(line);
    lines.map(|line| format!("{}\n", line.trim_end())).collect()
}

/// A line of the kind, with a sign for each field that it has; a mode may be left out.
fn form(kind: &Kind) -> String {
    let mut form = kind.word.to_string();
    for (name, field) in kind.blank.clone().in_text() {
        let sign = match field {
            Field::Count(_) => "COUNT",
            Field::Process(_) => "PROCESS",
            Field::Identifier(_) => "ID",
            Field::Number(_) => "N",
            Field::Value(_) => "V",
            Field::Values(_) => "VALUES",
            Field::Mode(_) => "MODE",
            Field::User(_) => "USER",
            Field::Group(_) => "GROUP",
            Field::Operations(_) => "OPERATION...",
            Field::Wait(None) => continue,
            Field::Wait(_) => "WAIT",
            Field::Time(_) => "TIME",
        };
        form += &match field {
            Field::Mode(_) => format!(" [{name}{sign}]"),
            _ => format!(" {name}{sign}"),
        };
    }
    form
}

#[cfg(test)]
mod tests {
    use super::*;

    #[test]
    fn each_event_has_a_line() {
        let text = text();
        for line in [
            "  create COUNT by=PROCESS [mode=MODE]              a set of COUNT semaphores\n",
            "  operate PROCESS set=ID OPERATION...              all the operations, or sleep\n",
            "  operate PROCESS set=ID wait=WAIT OPERATION...    \
            the same, asleep for at most WAIT ms\n",
            "  remove ID by=PROCESS\n",
            "  time TIME                                        tell the present time, in ms\n",
            "  set-all ID by=PROCESS values=VALUES              set all values of a set at once\n",
            "  read-all ID by=PROCESS                           \
            all values of a set, and how many wait\n",
            "  as PROCESS user=USER group=GROUP                 \
            give a process a user and a group number\n",
        ] {
            assert!(text.contains(line), "{line} is not in\n{text}");
        }
    }
}
