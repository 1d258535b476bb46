//! How callers stand to a set: those who are denied, and those who wake others.

use second::{Credentials, Event};

use crate::call::{asked_by, Call};
use crate::checks;
use crate::class::{Asked, Class, Rights};
use crate::counts::Row;
use crate::line::Line;
use crate::world::World;

/// What is shown beside a code or another number.
#[derive(Clone, Copy, Debug, PartialEq, Eq, PartialOrd, Ord)]
pub enum Standing {
    /// The code of a denial by a class, though a later one would grant it.
    Denied(Class, Class),
    /// The code of a denial to one in group 0, to one whose user is the owning group, and to one
    /// whose group is the owner, where these would be granted it.
    GroupZero,
    UserIsGroup,
    GroupIsOwner,
    /// Of one that is denied what the owner or the owning group would be granted: the one byte in
    /// which its number is another.
    OwnerBut,
    GroupBut,
    /// The code of a denial to the process that created the set, to the owner of the set that was
    /// in its slot before, and to a process that left after it became what it acts as.
    Creator,
    OwnerBefore,
    Left,
    /// The code of what only the owner may, where it is not the process that created the set.
    OwnerApart,
    /// The code of a waking by one of this class, and by one that may not do itself what the
    /// sleeper does.
    Woken(Class),
    WokenBeyond,
    /// The code of a waking by the exit of a process that may not alter the set.
    Undone,
    /// How many sleep while another becomes somebody else.
    Beside,
}

/// All of them, with their names and the numbers that have to come.
pub const STANDINGS: [Row<Standing>; 19] = [
    (Standing::Denied(Class::Owner, Class::Group), "owner denied, not group", &[13]),
    (Standing::Denied(Class::Owner, Class::Other), "owner denied, not other", &[13]),
    (Standing::Denied(Class::Group, Class::Other), "group denied, not other", &[13]),
    (Standing::GroupZero, "group 0 denied with", &[1, 13]),
    (Standing::UserIsGroup, "user is owning group", &[13]),
    (Standing::GroupIsOwner, "group is owner", &[1, 13]),
    (Standing::OwnerBut, "owner but for byte", &[0, 1, 2, 3]),
    (Standing::GroupBut, "owning group but for byte", &[0, 1, 2, 3]),
    (Standing::Creator, "creator denied with", &[1, 13]),
    (Standing::OwnerBefore, "owner before denied with", &[1, 13]),
    (Standing::Left, "denied after an exit with", &[1, 13]),
    (Standing::OwnerApart, "owner, not creator", &[0]),
    (Standing::Woken(Class::Owner), "woken by owner with", &[0, 11, 34]),
    (Standing::Woken(Class::Group), "woken by group with", &[0, 11, 34]),
    (Standing::Woken(Class::Other), "woken by other with", &[0, 11, 34]),
    (Standing::Woken(Class::Root), "woken by user 0 with", &[0, 11, 34]),
    (Standing::WokenBeyond, "woken, waker denied it", &[0, 11, 34]),
    (Standing::Undone, "exit where denied, woken", &[0, 11, 34]),
    (Standing::Beside, "act as, beside so many", &[0, 1, 2, 3, 4, 5, 6, 7]),
];

/// What an event shows in the world before it.
pub fn shown(world: &World, event: Event, line: &Line) -> Vec<(Standing, i32)> {
    let mut shown = woken(world, event, line);
    if let Some(call) = Call::of(event) {
        shown.extend(asking(world, call, line).unwrap_or_default());
    }
    if let (Event::ActAs { .. }, 0) = (event, line.code.number) {
        shown.push((Standing::Beside, world.asleep() as i32));
    }
    shown
}

/// What a call shows that came to the question of permission.
fn asking(world: &World, call: Call, line: &Line) -> Option<Vec<(Standing, i32)>> {
    let permitted = checks::permitted(world, call, line)?;
    let (process, slot) = (world.process(call.process)?, world.slot(call.identifier?));
    let (who, rights, asked) = (process.acts_as, slot.rights, call.asked?);
    let (code, created) = (line.code.number, call.process == slot.creator);
    if permitted {
        let apart = !created && owner_alone(rights, who, asked);
        return apart.then(|| vec![(Standing::OwnerApart, code)]);
    }
    let before = [
        (Standing::Creator, created),
        (Standing::OwnerBefore, slot.owner_before == Some(who.user)),
        (Standing::Left, process.left),
    ];
    let given = denied(rights, who, asked).into_iter().chain(before).filter(|(_, given)| *given);
    let shown = given.map(|(standing, _)| (standing, code));
    Some(shown.chain(but_for_a_byte(rights, who, asked)).collect())
}

/// It is the owner, and nobody else would be granted it.
fn owner_alone(rights: Rights, who: Credentials, asked: Asked) -> bool {
    let others = [Class::Group, Class::Other];
    rights.class(who) == Class::Owner && !others.iter().any(|&class| rights.grants(class, asked))
}

/// How one that is denied stands to the set by its numbers.
fn denied(rights: Rights, who: Credentials, asked: Asked) -> [(Standing, bool); 5] {
    let class = rights.class(who);
    let [owner, group, other] =
        [Class::Owner, Class::Group, Class::Other].map(|class| rights.grants(class, asked));
    let in_group = who.group == rights.group;
    [
        (Standing::Denied(class, Class::Group), class == Class::Owner && in_group && group),
        (Standing::Denied(class, Class::Other), class != Class::Other && other),
        (Standing::GroupZero, who.group == 0),
        (Standing::UserIsGroup, who.user == rights.group && group),
        (Standing::GroupIsOwner, who.group == rights.owner && owner),
    ]
}

/// The one byte by which it is not the owner or not in the owning group, and is denied.
fn but_for_a_byte(
    rights: Rights,
    who: Credentials,
    asked: Asked,
) -> impl Iterator<Item = (Standing, i32)> {
    let in_class = rights.class(who) == Class::Other;
    let owner = other_byte(who.user, rights.owner).filter(|_| rights.grants(Class::Owner, asked));
    let group = other_byte(who.group, rights.group)
        .filter(|_| in_class && rights.grants(Class::Group, asked));
    let owner = owner.map(|byte| (Standing::OwnerBut, byte));
    owner.into_iter().chain(group.map(|byte| (Standing::GroupBut, byte)))
}

/// The byte in which two numbers differ, if it is one.
fn other_byte(one: u32, other: u32) -> Option<i32> {
    let differ = |byte: &usize| one.to_le_bytes()[*byte] != other.to_le_bytes()[*byte];
    match (0..4).filter(differ).collect::<Vec<_>>()[..] {
        [byte] => Some(byte as i32),
        _ => None,
    }
}

/// How those who wake others stand to the set: by a call, or by an exit.
fn woken(world: &World, event: Event, line: &Line) -> Vec<(Standing, i32)> {
    let caller = Call::of(event).and_then(|call| world.process(call.process));
    let leaver = match event {
        Event::Exit { process } => world.process(process),
        _ => None,
    };
    let mut shown = Vec::new();
    for &(sleeper, code) in &line.wakings {
        let asleep = world.process(sleeper).and_then(|process| process.asleep);
        let (rights, asked) = match asleep {
            Some((id, operations)) => (world.slot(id).rights, asked_by(operations)),
            None => continue,
        };
        let denied = |who, asked: Option<Asked>| asked.map_or(false, |a| !rights.permits(who, a));
        let mut show = |standing| shown.push((standing, code.number));
        if let Some(who) = caller.map(|process| process.acts_as) {
            show(Standing::Woken(rights.class(who)));
            if denied(who, asked) {
                show(Standing::WokenBeyond);
            }
        }
        if leaver.map_or(false, |process| denied(process.acts_as, Some(Asked::Alter))) {
            show(Standing::Undone);
        }
    }
    shown
}

#[cfg(test)]
mod tests {
    use super::*;
    use crate::line::followed;
    use second::event::{act_as, create, exit, operate, query, remove, set_value, Body};
    use second::{run_file, UNDO};

    /// No number that a set here has, nor one of them but for a byte.
    const STRANGER: u32 = 0x0505_0505;

    /// What the events of a run show, behind a set of owner 7 and group 9 that process 1 creates.
    fn shown_on(mode: u16, bodies: &[Body]) -> Vec<Vec<(Standing, i32)>> {
        let file = run_file(&[&[act_as(1, 7, 9), create(1, 2, mode)], bodies].concat());
        let mut world = World::default();
        let follow = |event, line: &Line| {
            let shown = shown(&world, event, line);
            world.follow(event, line);
            shown
        };
        followed(&file, follow).split_off(2)
    }

    #[test]
    fn a_later_class_does_not_help() {
        let run = [query(1, 0, 0), act_as(1, 7, STRANGER), query(1, 0, 0)];
        let [group, other] =
            [Class::Group, Class::Other].map(|class| (Standing::Denied(Class::Owner, class), 13));
        let creator = (Standing::Creator, 13);
        assert_eq!(shown_on(0o044, &run)[0], [group, other, creator]);
        assert_eq!(shown_on(0o044, &run)[2], [other, creator]);
        let run = [act_as(2, STRANGER, 9), query(2, 0, 0)];
        let denied = (Standing::Denied(Class::Group, Class::Other), 13);
        assert_eq!(shown_on(0o404, &run)[1], [denied]);
    }

    #[test]
    fn numbers_that_are_close() {
        let asks =
            |user, group| shown_on(0o660, &[act_as(2, user, group), query(2, 0, 0)])[1].clone();
        assert_eq!(asks(7 + 256, STRANGER), [(Standing::OwnerBut, 1)]);
        assert_eq!(asks(STRANGER, 9 + (1 << 24)), [(Standing::GroupBut, 3)]);
        assert_eq!(asks(9, 7)[..2], [(Standing::UserIsGroup, 13), (Standing::GroupIsOwner, 13)]);
        assert_eq!(asks(1 << 16, 0)[..1], [(Standing::GroupZero, 13)]);
        assert_eq!(asks(0, 0), []);
    }

    #[test]
    fn what_was_before() {
        let run = [
            act_as(1, STRANGER, STRANGER),
            remove(1, 0),
            exit(1),
            remove(1, 0),
            act_as(2, 7, STRANGER),
            query(2, 0, 0),
            remove(2, 0),
            act_as(3, 3 << 16, STRANGER),
            create(3, 1, 0o600),
            query(2, 4, 0),
        ];
        let shown = shown_on(0o600, &run);
        assert_eq!(shown[1], [(Standing::Creator, 1)]);
        assert_eq!(shown[3], [(Standing::Creator, 1), (Standing::Left, 1)]);
        assert_eq!(shown[5..7].concat(), [(Standing::OwnerApart, 0); 2]);
        assert_eq!(shown[9], [(Standing::OwnerBefore, 13)]);
    }

    #[test]
    fn wakings() {
        let run = [
            act_as(2, 5, 9),
            act_as(3, 5, 5),
            operate(2, 0, &[(1, 0, 0), (0, -1, 0)]),
            act_as(4, 0, 0),
            set_value(3, 0, 0, 1),
            operate(3, 0, &[(0, 1, 0), (0, -1, UNDO)]),
            operate(2, 0, &[(0, -1, 0)]),
            act_as(3, 7, 7),
            exit(3),
        ];
        let shown = shown_on(0o062, &run);
        assert_eq!(shown[3], [(Standing::Beside, 1)]);
        assert_eq!(shown[4], [(Standing::Woken(Class::Other), 0), (Standing::WokenBeyond, 0)]);
        assert_eq!(shown[8], [(Standing::Undone, 0)]);
    }
}
