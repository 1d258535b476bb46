//! Owners and modes: by which bits a process goes, what they permit, and that it calls by the user
//! and the group that it has then.

use vairolent::{Error, Host, Operation, MODE_MAX, PROCESSES};

use crate::sleep;

/// The set is made by this process, as this user of this group.
const OWNER: u8 = 1;
const USER: u32 = 7;
const GROUP: u32 = 9;

/// Another process.
const CALLER: u8 = 3;

const ADD: Operation = Operation::new(0, 1);
const TAKE: Operation = Operation::new(0, -1);
const ZERO: Operation = Operation::new(0, 0);

/// By which bits a process goes: those from this one on, or none.
#[derive(Clone, Copy, PartialEq)]
enum Class {
    From(u16),
    Passes,
}

const OWNERS: Class = Class::From(6);
const GROUPS: Class = Class::From(3);
const OTHERS: Class = Class::From(0);

/// Users and groups, with their class.
const CALLERS: [(u32, u32, Class); 12] = [
    (USER, GROUP, OWNERS),
    (USER, 1, OWNERS),
    (USER, 0, OWNERS),
    (8, GROUP, GROUPS),
    (GROUP, GROUP, GROUPS),
    (8, 1, OTHERS),
    (8, 0, OTHERS),
    (8, USER, OTHERS),
    (GROUP, USER, OTHERS),
    (0, 1, Class::Passes),
    (0, GROUP, Class::Passes),
    (0, 0, Class::Passes),
];

impl Class {
    /// Of three bits, 4 reads and 2 alters.
    fn permits(self, mode: u16, bit: u16) -> bool {
        match self {
            Class::From(first) => mode & bit << first != 0,
            Class::Passes => true,
        }
    }
}

/// A fresh host with the set, of two semaphores.
fn owned(mode: u16) -> (Host, i32) {
    let mut host = Host::new();
    host.act_as(OWNER, USER, GROUP).expect("awake");
    let set = host.create(OWNER, 2, mode).expect("a slot is free");
    (host, set)
}

/// Is a call permitted? It is refused for nothing else.
fn goes<T>(told: Result<T, Error>) -> bool {
    match told {
        Ok(_) => true,
        Err(Error::NotPermitted) => false,
        Err(other) => panic!("{other}"),
    }
}

/// Is a process permitted to read and to alter, by every call alike?
fn permitted(host: &Host, process: u8, set: i32) -> [bool; 2] {
    let operate = |operations: &[Operation]| goes(host.clone().operate(process, set, operations));
    let reads =
        [goes(host.query(process, set, 1)), goes(host.query_set(process, set)), operate(&[ZERO])];
    let alters = [
        goes(host.clone().set_value(process, set, 1, 3)),
        goes(host.clone().set_all(process, set, &[3, 4])),
        operate(&[ADD]),
    ];
    assert_eq!(reads, [reads[0]; 3]);
    assert_eq!(alters, [alters[0]; 3]);
    assert_eq!(operate(&[ADD, TAKE, ZERO]), reads[0] && alters[0]);
    [reads[0], alters[0]]
}

#[test]
fn every_mode_for_every_caller() {
    for mode in 0..=MODE_MAX {
        let (mut host, set) = owned(mode);
        for (user, group, class) in CALLERS {
            assert_eq!(host.act_as(CALLER, user, group), Ok(()));
            let wanted = [4, 2].map(|bit| class.permits(mode, bit));
            assert_eq!(permitted(&host, CALLER, set), wanted, "{mode:o}: {user} {group}");
        }
    }
}

/// Who differs from the set in one bit alone is not its owner, not in its group, and not user 0.
#[test]
fn every_bit_of_users_and_groups() {
    let (user, group) = (0x8142_c3f0, 0x01fe_7a96);
    let mut host = Host::new();
    host.act_as(OWNER, user, group).expect("awake");
    let set = host.create(OWNER, 2, 0o420).expect("a slot is free");
    for bit in (0..32).map(|bit| 1 << bit) {
        let callers = [
            (user, group ^ bit, [true, false]),
            (user ^ bit, group, [false, true]),
            (user ^ bit, group ^ bit, [false, false]),
            (bit, bit, [false, false]),
        ];
        for (user, group, wanted) in callers {
            assert_eq!(host.act_as(CALLER, user, group), Ok(()));
            assert_eq!(permitted(&host, CALLER, set), wanted);
        }
    }
}

#[test]
fn group_0_is_a_group_as_any_other() {
    let mut host = Host::new();
    let set = host.create(OWNER, 2, 0o042).expect("a slot is free");
    for (group, wanted) in [(0, [true, false]), (1, [false, true])] {
        assert_eq!(host.act_as(CALLER, USER, group), Ok(()));
        assert_eq!(permitted(&host, CALLER, set), wanted);
    }
}

/// The mode is not asked.
#[test]
fn removed_by_its_owner_and_by_user_0() {
    for mode in [0, 0o077, MODE_MAX] {
        for (user, group, class) in CALLERS {
            let (mut host, set) = owned(mode);
            assert_eq!(host.act_as(CALLER, user, group), Ok(()));
            let before = host.clone();
            if class == OWNERS || class == Class::Passes {
                assert_eq!(host.remove(CALLER, set).map(|wakings| wakings.len()), Ok(0));
            } else {
                assert_eq!(host.remove(CALLER, set), Err(Error::NotOwner));
                assert_eq!(host, before);
            }
        }
    }
}

/// A removed set leaves nothing of its owner, group and mode.
#[test]
fn nothing_is_left_of_a_removed_set() {
    let (mut host, set) = owned(0o640);
    assert!(host.remove(OWNER, set).is_ok());
    let mut other = Host::new();
    assert_eq!(other.create(OWNER, 1, 0), Ok(set));
    assert!(other.remove(OWNER, set).is_ok());
    assert_eq!(other.act_as(OWNER, USER, GROUP), Ok(()));
    assert_eq!(host, other);
}

/// Each has numbers of its own, both 0 at first.
#[test]
fn every_process_by_its_own_numbers() {
    let (mut host, set) = owned(0o640);
    let processes = OWNER + 1..=PROCESSES as u8;
    assert!(processes.clone().all(|process| permitted(&host, process, set) == [true; 2]));
    for process in processes.clone() {
        assert_eq!(host.act_as(process, process.into(), process.into()), Ok(()));
    }
    for process in processes {
        let wanted = [u32::from(process) == USER; 2];
        assert_eq!(permitted(&host, process, set), wanted);
    }
}

/// Those of a set stay as they were at its creation.
#[test]
fn by_the_numbers_of_the_moment() {
    let (mut host, set) = owned(0o640);
    assert_eq!(host.act_as(OWNER, 8, GROUP), Ok(()));
    assert_eq!(permitted(&host, OWNER, set), [true, false]);
    assert_eq!(host.remove(OWNER, set), Err(Error::NotOwner));
    assert_eq!(host.act_as(CALLER, USER, 8), Ok(()));
    assert_eq!(permitted(&host, CALLER, set), [true, true]);
    let next = host.create(OWNER, 2, 0o600).expect("a slot is free");
    assert_eq!(host.remove(CALLER, next), Err(Error::NotOwner));
    assert!(host.remove(OWNER, next).is_ok());
    assert!(host.remove(CALLER, set).is_ok());
}

#[test]
fn an_exit_leaves_both_numbers() {
    let (mut host, set) = owned(0o640);
    assert_eq!(host.act_as(CALLER, 8, GROUP), Ok(()));
    let before = host.clone();
    assert!(host.exit(CALLER).is_ok());
    assert_eq!(host, before);
    sleep(&mut host, set, &[OWNER], &[TAKE]);
    assert!(host.exit(OWNER).is_ok());
    assert_eq!(host, before);
}

/// They are those of its call; whoever may alter wakes it, and what it may do is not asked again.
#[test]
fn a_sleeper_keeps_its_numbers() {
    let (mut host, set) = owned(0o620);
    assert_eq!(host.act_as(CALLER, 8, GROUP), Ok(()));
    sleep(&mut host, set, &[CALLER], &[TAKE]);
    for (user, group) in [(0, 0), (8, GROUP), (USER, GROUP)] {
        assert_eq!(host.act_as(CALLER, user, group), Err(Error::ProcessAsleep));
    }
    assert_eq!(host.act_as(OWNER, 8, 8), Ok(()));
    assert_eq!(host.operate(OWNER, set, &[ADD]), Err(Error::NotPermitted));
    assert_eq!(host.act_as(OWNER, 0, 8), Ok(()));
    assert_eq!(host.set_value(OWNER, set, 0, 1).map(|wakings| wakings.len()), Ok(1));
    assert_eq!(permitted(&host, CALLER, set), [false, true]);
    assert_eq!(host.act_as(CALLER, USER, 0), Ok(()));
    assert_eq!(permitted(&host, CALLER, set), [true, true]);
}
