//! Who calls: the two tests of the caller, and then the checks of each event, two by two.

use second::event::{
    act_as, clock, create, exit, operate, query, read_all, remove, set_all, set_value, signal,
    timed_operate, Body,
};
use second::{Errno, Event, Host, Rule, NOWAIT};

use crate::check;

/// All four slots are taken. Process 1 sleeps at set 0, which is its own alone. Process 2 may do
/// nothing, not even at set 1, which it owns. Process 3 and those behind it pass as user 0.
fn scene() -> Vec<(Body, &'static str)> {
    vec![
        (act_as(1, 7, 9), "0 0 0"),
        (act_as(2, 5, 5), "0 0 0"),
        (create(1, 2, 0o600), "0 0 0"),
        (create(2, 2, 0), "0 1 0"),
        (create(3, 2, 0), "0 2 0"),
        (create(3, 2, 0), "0 3 0"),
        (operate(1, 0, &[(0, -1, 0)]), "-1@0 0 0"),
    ]
}

/// The events in the scene, each with its line.
fn check_in_the_scene(run: &[(Body, &str)]) {
    check(&[&scene(), run].concat());
}

/// Every event that names a caller: as good as it can be, at a set that process 1 may not touch,
/// and wrong in all that comes behind the caller.
fn calls(process: u8) -> [Body; 24] {
    let many = [(2, 0, 0); 33];
    [
        create(process, 2, 0o600),
        create(process, 0, 0o1000),
        operate(process, 0, &[(1, 1, 0)]),
        operate(process, 1, &[(1, 1, 0)]),
        operate(process, 1, &[(2, 0, 0)]),
        operate(process, 99, &[]),
        operate(process, 99, &many),
        timed_operate(process, 0, 0, &[(1, -1, 0)]),
        timed_operate(process, 99, 0, &many),
        set_value(process, 0, 1, 1),
        set_value(process, 1, 2, -1),
        set_value(process, 99, 2, -1),
        remove(process, 0),
        remove(process, 1),
        remove(process, 99),
        query(process, 0, 1),
        query(process, 1, 2),
        query(process, 99, 2),
        set_all(process, 0, &[1, 1]),
        set_all(process, 1, &[-1]),
        set_all(process, 99, &[-1]),
        read_all(process, 0),
        read_all(process, 1),
        act_as(process, 0, 0),
    ]
}

/// All of them in the scene are refused with the code, and change nothing. A refused query has a zero
/// for each of its numbers, a refused reading has none.
fn all_refused(process: u8, code: u8) {
    let lines = [format!("{code} 0 0 0 0"), format!("{code}"), format!("{code} 0 0")];
    let line_of = |body: &Body| match body[0] {
        7 => &*lines[0],
        11 => &*lines[1],
        _ => &*lines[2],
    };
    let mut run: Vec<(Body, &str)> =
        calls(process).into_iter().map(|body| (body.clone(), line_of(&body))).collect();
    run.push((read_all(8, 0), "0 0 1 0 0 0 0"));
    run.push((read_all(8, 1), "0 0 0 0 0 0 0"));
    run.push((create(8, 1, 0), "28 0 0"));
    run.push((operate(8, 0, &[(0, 1, 0)]), "0 0 1 1=0"));
    run.push((set_value(1, 0, 0, 0), "0 0 0"));
    run.push((set_value(1, 1, 0, 0), "13 0 0"));
    check_in_the_scene(&run);
}

#[test]
fn a_process_that_is_not_there() {
    for process in [0, 9, 16, 129, 255] {
        all_refused(process, 3);
    }
}

#[test]
fn a_process_asleep() {
    all_refused(1, 16);
}

/// Those name a process, but it is not the one that calls.
#[test]
fn signal_and_exit_of_a_process_asleep() {
    check_in_the_scene(&[
        (signal(1), "0 0 0 1=4"),
        (operate(1, 0, &[(0, -1, 0)]), "-1@0 0 0"),
        (exit(1), "0 0 0"),
        (read_all(1, 0), "0 0 0 0 0 0 0"),
    ]);
}

/// The clock names no process, so that it goes on while all are asleep.
#[test]
fn eight_asleep_and_the_clock() {
    let mut run = vec![(create(1, 1, 0o666), "0 0 0")];
    run.extend((1..=8).map(|process| (operate(process, 0, &[(0, -1, 0)]), "-1@0 0 0")));
    run.extend((1..=8).map(|process| (query(process, 0, 0), "16 0 0 0 0")));
    run.push((clock(5), "0 0 0"));
    run.push((signal(4), "0 0 0 4=4"));
    run.push((query(4, 0, 0), "0 0 0 7 0"));
    check(&run);
}

/// Count and bits are tested together, before a slot is looked for.
#[test]
fn checks_of_a_create() {
    check_in_the_scene(&[
        (create(2, 0, 0o777), "22 0 0"),
        (create(2, 9, 0o777), "22 0 0"),
        (create(2, 2, 0o1000), "22 0 0"),
        (create(2, 2, 0xFFFF), "22 0 0"),
        (create(2, 0, 0o1000), "22 0 0"),
        (create(2, 8, 0o777), "28 0 0"),
        (remove(8, 2), "0 0 0"),
        (create(2, 1, 0o1000), "22 0 0"),
        (create(2, 1, 0x8000), "22 0 0"),
        (create(2, 0, 0), "22 0 0"),
        (create(2, 8, 0o777), "0 6 0"),
        (create(2, 8, 0o777), "28 0 0"),
    ]);
}

/// No live set, permission, the number, the value. Another set in the slot does not make one, nor
/// does a slot that is free.
#[test]
fn checks_of_a_set_value() {
    check_in_the_scene(&[
        (set_value(2, 99, 2, -1), "22 0 0"),
        (set_value(2, 4, 0, 1), "22 0 0"),
        (set_value(2, -4, 0, 1), "22 0 0"),
        (set_value(2, 0, 2, -1), "13 0 0"),
        (set_value(2, 0, 2, 1), "13 0 0"),
        (set_value(2, 0, 1, 32_768), "13 0 0"),
        (set_value(2, 0, 1, 1), "13 0 0"),
        (set_value(3, 0, 2, -1), "22 0 0"),
        (set_value(3, 0, 2, 1), "22 0 0"),
        (set_value(3, 0, 1, -1), "34 0 0"),
        (remove(3, 2), "0 0 0"),
        (set_value(2, 2, 0, 1), "22 0 0"),
        (set_value(3, 2, 0, -1), "22 0 0"),
    ]);
}

#[test]
fn checks_of_a_query() {
    check_in_the_scene(&[
        (query(2, 99, 2), "22 0 0 0 0"),
        (query(2, 4, 0), "22 0 0 0 0"),
        (query(2, -4, 0), "22 0 0 0 0"),
        (query(2, 0, 2), "13 0 0 0 0"),
        (query(2, 0, 0), "13 0 0 0 0"),
        (query(3, 0, 2), "22 0 0 0 0"),
        (query(3, 0, 0), "0 0 0 1 0"),
        (remove(3, 2), "0 0 0"),
        (query(2, 2, 0), "22 0 0 0 0"),
    ]);
}

/// No live set, permission, the number of values, the values.
#[test]
fn checks_of_a_setting() {
    check_in_the_scene(&[
        (set_all(2, 99, &[-1]), "22 0 0"),
        (set_all(2, 4, &[1, 1]), "22 0 0"),
        (set_all(2, -4, &[1, 1]), "22 0 0"),
        (set_all(2, 0, &[-1]), "13 0 0"),
        (set_all(2, 0, &[]), "13 0 0"),
        (set_all(2, 0, &[1, 1, 1]), "13 0 0"),
        (set_all(2, 0, &[1, -1]), "13 0 0"),
        (set_all(2, 0, &[1, 1]), "13 0 0"),
        (set_all(3, 0, &[-1]), "22 0 0"),
        (set_all(3, 0, &[1, -1]), "34 0 0"),
        (remove(3, 2), "0 0 0"),
        (set_all(2, 2, &[1, 1]), "22 0 0"),
    ]);
}

#[test]
fn checks_of_a_reading() {
    check_in_the_scene(&[
        (read_all(2, 99), "22"),
        (read_all(2, 4), "22"),
        (read_all(2, -4), "22"),
        (read_all(2, 0), "13"),
        (read_all(3, 0), "0 0 1 0 0 0 0"),
        (remove(3, 2), "0 0 0"),
        (read_all(2, 2), "22"),
    ]);
}

#[test]
fn checks_of_a_remove() {
    check_in_the_scene(&[
        (remove(2, 99), "22 0 0"),
        (remove(2, 4), "22 0 0"),
        (remove(2, -4), "22 0 0"),
        (remove(2, 0), "1 0 0"),
        (remove(3, 2), "0 0 0"),
        (remove(2, 2), "22 0 0"),
        (remove(3, 0), "0 0 0 1=43"),
        (remove(2, 0), "22 0 0"),
    ]);
}

/// Permission comes behind the semaphores' numbers and before the judging, with a wait and without.
#[test]
fn checks_of_an_operate() {
    let mut run = Vec::new();
    let cases = [
        (0, vec![], "22 0 0"),
        (0, vec![(1, 1, 0); 33], "7 0 0"),
        (0, vec![(2, 1, 0); 33], "7 0 0"),
        (99, vec![(1, 1, 0)], "22 0 0"),
        (4, vec![(1, 1, 0)], "22 0 0"),
        (0, vec![(2, 1, 0)], "27 0 0"),
        (0, vec![(1, 1, 0), (2, 0, 0)], "27 0 0"),
        (0, vec![(1, 1, 0)], "13 0 0"),
        (0, vec![(1, 0, 0)], "13 0 0"),
        (0, vec![(1, -1, 0)], "13 0 0"),
        (0, vec![(1, -1, NOWAIT)], "13 0 0"),
        (0, vec![(1, 32_767, 0), (1, 1, 0)], "13 0 0"),
    ];
    for (identifier, array, line) in cases {
        run.push((operate(2, identifier, &array), line));
        run.push((timed_operate(2, identifier, 0, &array), line));
        run.push((timed_operate(2, identifier, 5, &array), line));
    }
    check_in_the_scene(&run);
}

/// It asks no permission and names no set, and none of the numbers is special.
#[test]
fn an_act_as_has_two_checks_alone() {
    check_in_the_scene(&[
        (act_as(2, u32::MAX, u32::MAX), "0 0 0"),
        (act_as(2, 0, 0), "0 0 0"),
        (act_as(2, 7, 0), "0 0 0"),
        (act_as(1, 0, 0), "16 0 0"),
        (act_as(0, 0, 0), "3 0 0"),
        (act_as(9, 0, 0), "3 0 0"),
    ]);
}

/// A whole set is shown to its caller as a reading is.
#[test]
fn checks_of_a_whole_set() {
    let mut host = Host::new(Rule::Quick);
    for (body, _) in scene() {
        host.handle(&Event::decode(&body).expect("a good body"));
    }
    let refused = |process, identifier| host.query_set(process, identifier).err();
    for identifier in [0, 1, 99] {
        assert_eq!(refused(0, identifier), Some(Errno::Esrch));
        assert_eq!(refused(9, identifier), Some(Errno::Esrch));
        assert_eq!(refused(1, identifier), Some(Errno::Ebusy));
    }
    for identifier in [-4, 4, 99] {
        assert_eq!(refused(2, identifier), Some(Errno::Einval));
    }
    assert_eq!(refused(2, 0), Some(Errno::Eacces));
    assert_eq!(refused(2, 1), Some(Errno::Eacces));
    assert_eq!(refused(3, 0), None);
}
