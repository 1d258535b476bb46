//! Owners and modes: whose bits decide, and what they allow.

use second::event::{
    act_as, create, exit, operate, query, read_all, remove, set_all, set_value, timed_operate, Body,
};
use second::{Credentials, Event, Host, Rule, UNDO};

use crate::check;

type Run = Vec<(Body, &'static str)>;

/// As user 7 in group 9 process 1 makes a set of one semaphore; process 2 acts as another.
fn set_and_caller(mode: u16, (user, group): (u32, u32)) -> Run {
    vec![
        (act_as(1, 7, 9), "0 0 0"),
        (create(1, 1, mode), "0 0 0"),
        (act_as(2, user, group), "0 0 0"),
    ]
}

/// Process 2 asks for all that needs a read, then for all that needs an alter, then for both. The
/// value ends as it was, at 0.
fn asked(read: bool, alter: bool) -> Run {
    let done = |permitted| if permitted { "0 0 0" } else { "13 0 0" };
    let up_down_zero = [(0, 1, 0), (0, -1, 0), (0, 0, 0)];
    vec![
        (query(2, 0, 0), if read { "0 0 0 0 0" } else { "13 0 0 0 0" }),
        (read_all(2, 0), if read { "0 0 0 0" } else { "13" }),
        (operate(2, 0, &[(0, 0, 0)]), done(read)),
        (timed_operate(2, 0, 5, &[(0, 0, 0); 2]), done(read)),
        (set_value(2, 0, 0, 0), done(alter)),
        (set_all(2, 0, &[0]), done(alter)),
        (operate(2, 0, &[(0, 1, 0)]), done(alter)),
        (operate(2, 0, &[(0, -1, 0)]), done(alter)),
        (operate(2, 0, &up_down_zero), done(read && alter)),
        (timed_operate(2, 0, 0, &[(0, 0, 0), (0, 1, 0), (0, -1, 0)]), done(read && alter)),
    ]
}

/// Of all eight settings, whatever the bits of the other classes are.
#[test]
fn one_class_decides_by_its_bits() {
    let classes = [((7, 9), 6), ((7, 1), 6), ((7, 0), 6), ((5, 9), 3), ((5, 7), 0), ((9, 0), 0)];
    let table = [
        (0, false, false),
        (1, false, false),
        (2, false, true),
        (3, false, true),
        (4, true, false),
        (5, true, false),
        (6, true, true),
        (7, true, true),
    ];
    for (caller, place) in classes {
        for (bits, read, alter) in table {
            for others in [0, 0o777] {
                let mode = others & !(7 << place) | bits << place;
                check(&[set_and_caller(mode, caller), asked(read, alter)].concat());
            }
        }
    }
}

#[test]
fn an_owner_is_denied_what_the_group_is_allowed() {
    check(&[set_and_caller(0o077, (7, 9)), asked(false, false)].concat());
    check(&[set_and_caller(0o077, (5, 9)), asked(true, true)].concat());
}

#[test]
fn the_group_is_denied_what_others_are_allowed() {
    check(&[set_and_caller(0o707, (5, 9)), asked(false, false)].concat());
    check(&[set_and_caller(0o707, (5, 5)), asked(true, true)].concat());
}

/// Whatever its group is, and whoever owns the set.
#[test]
fn user_0_passes() {
    for group in [0, 9, 5] {
        for mode in [0, 0o111] {
            let mut run = set_and_caller(mode, (0, group));
            run.extend(asked(true, true));
            run.push((remove(2, 0), "0 0 0"));
            run.push((act_as(2, 0, group), "0 0 0"));
            run.push((create(2, 1, mode), "0 4 0"));
            run.push((set_all(2, 4, &[3]), "0 0 0"));
            run.push((read_all(2, 4), "0 3 0 0"));
            check(&run);
        }
    }
}

/// A set that user 0 owns has classes as any other.
#[test]
fn a_set_of_user_0() {
    check(&[
        (create(1, 1, 0o040), "0 0 0"),
        (act_as(2, 5, 0), "0 0 0"),
        (act_as(3, 5, 5), "0 0 0"),
        (query(2, 0, 0), "0 0 0 0 0"),
        (set_value(2, 0, 0, 1), "13 0 0"),
        (query(3, 0, 0), "13 0 0 0 0"),
        (remove(2, 0), "1 0 0"),
        (remove(8, 0), "0 0 0"),
    ]);
}

#[test]
fn group_0_is_nothing_special() {
    check(&[set_and_caller(0o660, (5, 0)), asked(false, false)].concat());
    check(&[
        (act_as(1, 7, 0), "0 0 0"),
        (create(1, 1, 0o606), "0 0 0"),
        (act_as(2, 5, 0), "0 0 0"),
        (query(2, 0, 0), "13 0 0 0 0"),
        (remove(2, 0), "1 0 0"),
        (act_as(2, 5, 1), "0 0 0"),
        (query(2, 0, 0), "0 0 0 0 0"),
    ]);
}

/// Users and groups that are alike in half of their bits are not the same, and none is below 0.
#[test]
fn numbers_of_32_bits() {
    let nearly = |number: u32| (0..32).map(move |bit| number ^ 1 << bit);
    for number in [7, 0x8000_0000, u32::MAX] {
        let start = vec![(act_as(1, number, number), "0 0 0"), (create(1, 1, 0o640), "0 0 0")];
        for other in nearly(number) {
            let mut run = start.clone();
            run.push((act_as(2, number, other), "0 0 0"));
            run.push((set_value(2, 0, 0, 0), "0 0 0"));
            run.push((act_as(2, other, number), "0 0 0"));
            run.push((set_value(2, 0, 0, 0), if other == 0 { "0 0 0" } else { "13 0 0" }));
            run.push((query(2, 0, 0), "0 0 0 0 0"));
            run.push((act_as(2, other, other), "0 0 0"));
            run.push((query(2, 0, 0), if other == 0 { "0 0 0 0 0" } else { "13 0 0 0 0" }));
            check(&run);
        }
    }
    for number in nearly(0) {
        check(&[set_and_caller(0, (number, 0)), asked(false, false)].concat());
    }
}

/// By owner or user 0, whatever the mode; a refused one leaves the set and its sleepers.
#[test]
fn who_may_remove() {
    let callers =
        [((7, 9), true), ((7, 1), true), ((0, 1), true), ((5, 9), false), ((5, 5), false)];
    for mode in [0, 0o777] {
        for (caller, may) in callers {
            let mut run = set_and_caller(mode, caller);
            run.push((operate(3, 0, &[(0, -1, 0)]), "-1@0 0 0"));
            run.push((remove(2, 0), if may { "0 0 0 3=43" } else { "1 0 0" }));
            run.push((read_all(8, 0), if may { "22" } else { "0 0 1 0" }));
            check(&run);
        }
    }
}

/// The number of a process is neither a user nor a group.
#[test]
fn the_owner_is_no_process() {
    check(&[
        (act_as(3, 7, 9), "0 0 0"),
        (create(3, 1, 0o600), "0 0 0"),
        (act_as(2, 3, 3), "0 0 0"),
        (query(2, 0, 0), "13 0 0 0 0"),
        (remove(2, 0), "1 0 0"),
        (act_as(3, 3, 3), "0 0 0"),
        (query(3, 0, 0), "13 0 0 0 0"),
        (remove(3, 0), "1 0 0"),
    ]);
}

/// The set stays its creator's, as that was then; a caller is who it acts as now.
#[test]
fn the_class_goes_by_the_present_numbers() {
    check(&[
        (act_as(1, 7, 9), "0 0 0"),
        (create(1, 1, 0o640), "0 0 0"),
        (set_value(1, 0, 0, 1), "0 0 0"),
        (act_as(1, 5, 9), "0 0 0"),
        (set_value(1, 0, 0, 2), "13 0 0"),
        (query(1, 0, 0), "0 1 0 0 0"),
        (remove(1, 0), "1 0 0"),
        (act_as(1, 5, 5), "0 0 0"),
        (query(1, 0, 0), "13 0 0 0 0"),
        (act_as(2, 7, 5), "0 0 0"),
        (set_value(2, 0, 0, 3), "0 0 0"),
        (act_as(1, 7, 5), "0 0 0"),
        (set_value(1, 0, 0, 4), "0 0 0"),
        (act_as(2, 5, 9), "0 0 0"),
        (query(2, 0, 0), "0 4 0 0 0"),
        (set_value(2, 0, 0, 5), "13 0 0"),
        (remove(1, 0), "0 0 0"),
    ]);
}

/// The next set in the slot has an owner, a group and a mode of its own.
#[test]
fn a_removed_set_leaves_nothing() {
    check(&[
        (act_as(1, 7, 9), "0 0 0"),
        (create(1, 1, 0o777), "0 0 0"),
        (remove(1, 0), "0 0 0"),
        (act_as(2, 5, 5), "0 0 0"),
        (create(2, 1, 0o640), "0 4 0"),
        (query(1, 4, 0), "13 0 0 0 0"),
        (remove(1, 4), "1 0 0"),
        (set_value(2, 4, 0, 1), "0 0 0"),
        (act_as(1, 7, 5), "0 0 0"),
        (query(1, 4, 0), "0 1 0 0 0"),
    ]);
}

#[test]
fn exit_leaves_both_numbers() {
    check(&[
        (act_as(1, 7, 9), "0 0 0"),
        (act_as(2, 5, 9), "0 0 0"),
        (create(1, 1, 0o640), "0 0 0"),
        (exit(1), "0 0 0"),
        (exit(2), "0 0 0"),
        (set_value(1, 0, 0, 1), "0 0 0"),
        (query(2, 0, 0), "0 1 0 0 0"),
        (set_value(2, 0, 0, 2), "13 0 0"),
        (create(2, 1, 0o600), "0 1 0"),
        (query(1, 1, 0), "13 0 0 0 0"),
    ]);
}

/// Neither of the sleeper, which cannot act as another meanwhile, nor of who wakes it: that one may
/// only alter, and the sleeper only read. The set's creator may have become another.
#[test]
fn nothing_is_asked_at_waking() {
    check(&[
        (act_as(1, 7, 9), "0 0 0"),
        (create(1, 2, 0o402), "0 0 0"),
        (act_as(2, 7, 1), "0 0 0"),
        (act_as(3, 5, 1), "0 0 0"),
        (set_value(3, 0, 0, 1), "0 0 0"),
        (operate(2, 0, &[(0, 0, 0)]), "-1@0 0 0"),
        (operate(4, 0, &[(0, 0, 0), (1, -1, 0)]), "-1@0 0 0"),
        (act_as(2, 5, 1), "16 0 0"),
        (act_as(4, 5, 9), "16 0 0"),
        (act_as(1, 5, 9), "0 0 0"),
        (operate(3, 0, &[(0, -1, 0)]), "0 0 2 2=0"),
        (set_all(3, 0, &[0, 1]), "0 0 1 4=0"),
        (query(2, 0, 0), "0 0 4 0 0"),
        (set_value(2, 0, 0, 1), "13 0 0"),
    ]);
}

/// What a process holds comes back though it may no longer alter the set, and wakes who waits.
#[test]
fn an_exit_asks_no_permission() {
    check(&[
        (act_as(1, 7, 9), "0 0 0"),
        (create(1, 1, 0o600), "0 0 0"),
        (operate(1, 0, &[(0, 2, 0), (0, -2, UNDO)]), "0 0 0"),
        (operate(3, 0, &[(0, -1, 0)]), "-1@0 0 0"),
        (act_as(1, 5, 5), "0 0 0"),
        (operate(1, 0, &[(0, 1, 0)]), "13 0 0"),
        (exit(1), "0 0 1 3=0"),
        (query(8, 0, 0), "0 1 3 0 0"),
    ]);
}

/// Neither values nor adjustments nor last processes, and nobody is looked at.
#[test]
fn a_denied_call_changes_nothing() {
    let mut run = set_and_caller(0o640, (5, 9));
    run.push((operate(3, 0, &[(0, 2, UNDO)]), "0 0 0"));
    run.push((operate(4, 0, &[(0, -3, 0)]), "-1@0 0 0"));
    run.push((set_value(2, 0, 0, 5), "13 0 0"));
    run.push((set_all(2, 0, &[5]), "13 0 0"));
    run.push((operate(2, 0, &[(0, 1, UNDO)]), "13 0 0"));
    run.push((timed_operate(2, 0, 0, &[(0, 0, 0), (0, 5, 0)]), "13 0 0"));
    run.push((query(2, 0, 0), "0 2 3 1 0"));
    run.push((exit(2), "0 0 0/1"));
    run.push((exit(3), "0 0 1"));
    run.push((query(2, 0, 0), "0 0 3 1 0"));
    check(&run);
}

/// Numbers and bits as a host holds them, the bit that allows nothing among them.
#[test]
fn what_a_host_shows() {
    let mut host = Host::new(Rule::Quick);
    assert_eq!(host.credentials(), &[Credentials::default(); 8]);
    let bodies = [
        act_as(3, 7, 9),
        create(3, 1, 0o757),
        act_as(3, u32::MAX, 1 << 31),
        act_as(9, 1, 1),
        operate(8, 0, &[(0, -1, 0)]),
        act_as(8, 1, 1),
        exit(3),
    ];
    for body in &bodies {
        host.handle(&Event::decode(body).expect("a good body"));
    }
    let mut wanted = [Credentials::default(); 8];
    wanted[2] = Credentials { user: u32::MAX, group: 1 << 31 };
    assert_eq!(host.credentials(), &wanted);
    let sets: Vec<_> = host.live_sets().map(|(_, set)| (set.owner, set.group, set.mode)).collect();
    assert_eq!(sets, [(7, 9, 0o757)]);
}
