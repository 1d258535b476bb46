//! Who was granted what: every class, with every setting of its three bits, asks all that can be
//! asked.

use std::iter;
use std::ops::Range;

use crate::call::Call;
use crate::checks;
use crate::class::{Asked, Class, Rights};
use crate::counts::Counts;
use crate::line::Line;
use crate::world::World;

/// A kind of event and what it asks, the caller's class, and the bits of that class. User 0 has
/// those of the class to which its numbers belong.
pub type Grant = ((u8, Asked), Class, u8);

const QUESTIONS: [((u8, Asked), &str); 11] = [
    ((2, Asked::Read), "operate, read"),
    ((2, Asked::Alter), "operate, alter"),
    ((2, Asked::Both), "operate, both"),
    ((3, Asked::Alter), "set value"),
    ((4, Asked::Remove), "remove"),
    ((7, Asked::Read), "query"),
    ((8, Asked::Read), "timed, read"),
    ((8, Asked::Alter), "timed, alter"),
    ((8, Asked::Both), "timed, both"),
    ((10, Asked::Alter), "set all"),
    ((11, Asked::Read), "read all"),
];

const CLASSES: [(Class, &str); 4] = [
    (Class::Owner, "owner"),
    (Class::Group, "group"),
    (Class::Other, "other"),
    (Class::Root, "user 0"),
];

const BITS: Range<u8> = 0..8;

/// What a call was granted or denied, where that is as the rules say.
pub fn decided(world: &World, call: Call, line: &Line) -> Option<Grant> {
    checks::permitted(world, call, line)?;
    let who = world.process(call.process)?.acts_as;
    let rights = world.slot(call.identifier?).rights;
    let bits = rights.bits(rights.by_numbers(who));
    Some(((call.kind, call.asked?), rights.class(who), bits))
}

/// Is it a denial?
fn is_denied(((_, asked), class, bits): Grant) -> bool {
    let mode = u16::from(bits) * 0o111;
    !Rights { mode, ..Rights::default() }.grants(class, asked)
}

/// For each question and class how often it came, by the bits; denials stand in brackets.
pub fn rows(counts: &Counts<Grant>) -> Vec<(String, String)> {
    let cell = |grant: Grant| {
        let count = counts.get(&grant).copied().unwrap_or(0);
        let shown = if is_denied(grant) { format!("({count})") } else { count.to_string() };
        format!("{shown:>8}")
    };
    let row = |question, class| BITS.map(|bits| cell((question, class, bits))).collect();
    let rows = |(question, asks): ((u8, Asked), &str)| {
        CLASSES.map(|(class, name)| (format!("{asks}: {name}"), row(question, class)))
    };
    let title =
        ("asked by class: bits".to_string(), BITS.map(|bits| format!("{bits:>8}")).collect());
    iter::once(title).chain(QUESTIONS.into_iter().flat_map(rows)).collect()
}

/// Those that never came.
pub fn missing(counts: &Counts<Grant>) -> Vec<String> {
    let mut missing = Vec::new();
    for (question, asks) in QUESTIONS {
        for (class, name) in CLASSES {
            let bits = BITS.filter(|&bits| !counts.contains_key(&(question, class, bits)));
            missing.extend(bits.map(|bits| format!("{asks}: {name} with bits {bits}")));
        }
    }
    missing
}

#[cfg(test)]
mod tests {
    use super::*;
    use crate::counts::count_each;
    use crate::line::followed;
    use crate::rights::classes;
    use second::event::{act_as, create, operate, query, remove, set_value, Body};
    use second::run_file;

    /// What the events of a run were granted or denied.
    fn shown(bodies: &[Body]) -> Vec<Option<Grant>> {
        let mut world = World::default();
        let file = run_file(bodies);
        followed(&file, |event, line| {
            let shown = Call::of(event).and_then(|call| decided(&world, call, line));
            world.follow(event, line);
            shown
        })
    }

    #[test]
    fn by_class_and_bits() {
        let run = [
            act_as(1, 7, 9),
            create(1, 1, 0o421),
            query(1, 0, 0),
            act_as(2, 5, 9),
            operate(2, 0, &[(0, 1, 0), (0, 0, 0)]),
            remove(2, 0),
            // A later mistake is none of permission, an earlier one comes before it.
            set_value(2, 0, 1, 0),
            operate(2, 0, &[(1, 1, 0)]),
            act_as(2, 5, 5),
            query(2, 0, 0),
            query(8, 0, 0),
            query(2, 4, 0),
        ];
        let wanted = [
            Some(((7, Asked::Read), Class::Owner, 4)),
            None,
            Some(((2, Asked::Both), Class::Group, 2)),
            Some(((4, Asked::Remove), Class::Group, 2)),
            Some(((3, Asked::Alter), Class::Group, 2)),
            None,
            None,
            Some(((7, Asked::Read), Class::Other, 1)),
            Some(((7, Asked::Read), Class::Root, 1)),
            None,
        ];
        assert_eq!(shown(&run)[2..], wanted);
    }

    #[test]
    fn one_file_has_all_of_them() {
        let mut counts = Counts::new();
        count_each(&mut counts, shown(&classes()).into_iter().flatten());
        assert_eq!(missing(&counts), [""; 0]);
    }

    #[test]
    fn denials_stand_in_brackets() {
        let counts = Counts::from([(((3, Asked::Alter), Class::Group, 5), 12)]);
        let rows = rows(&counts);
        let (_, shown) = rows.iter().find(|(name, _)| name == "set value: group").expect("a row");
        let cells: Vec<&str> = shown.split_whitespace().collect();
        assert_eq!(cells, ["(0)", "(0)", "0", "0", "(0)", "(12)", "0", "0"]);
    }
}
