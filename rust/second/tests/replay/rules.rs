//! Rules and readings that the situations leave out.

use second::event::{self, act_as, exit, operate, query, remove, set_value, signal};
use second::{Event, Host, Rule, State, NOWAIT, UNDO};

use crate::{asleep_by_an_adjustment, check, check_on_a_set, create};

#[test]
fn checks_go_in_their_order() {
    let many = [(99, 1, 0); 33];
    check(&[
        (event::create(1, 0, 0o246), "22 0 0"),
        (event::create(1, 9, 0o246), "22 0 0"),
        (event::create(1, 2, 0o1000), "22 0 0"),
        (act_as(1, 7, 9), "0 0 0"),
        (act_as(2, 5, 9), "0 0 0"),
        (event::create(1, 2, 0o246), "0 0 0"),
        (operate(0, 0, &[]), "3 0 0"),
        (operate(9, 0, &[]), "3 0 0"),
        (operate(1, 99, &[]), "22 0 0"),
        (operate(1, 99, &many), "7 0 0"),
        (operate(1, 99, &[(99, 1, 0)]), "22 0 0"),
        (operate(1, -4, &[(0, 0, 0)]), "22 0 0"),
        (operate(1, 0, &[(0, 0, 0), (2, 0, 0)]), "27 0 0"),
        (operate(1, 0, &[(0, 0, 0)]), "13 0 0"),
        (operate(2, 0, &[(0, 1, 0)]), "13 0 0"),
        (operate(1, 0, &[(0, 1, 0), (1, 0, 0)]), "13 0 0"),
        (operate(1, 0, &[(0, 0, 0), (1, 1, 0)]), "13 0 0"),
        (operate(1, 0, &[(0, -1, 0)]), "-1@0 0 0"),
        (operate(1, 99, &many), "16 0 0"),
    ]);
}

#[test]
fn refusals_of_the_other_events() {
    check_on_a_set(&[
        (create(), "0 1 0"),
        (create(), "0 2 0"),
        (event::create(8, 2, 0), "0 3 0"),
        (create(), "28 0 0"),
        (event::create(8, 0, 0), "22 0 0"),
        (event::create(8, 1, 0o1000), "22 0 0"),
        (set_value(8, 4, 0, 99_999), "22 0 0"),
        (set_value(8, 3, 2, 99_999), "22 0 0"),
        (set_value(8, 3, 1, 32_768), "34 0 0"),
        (set_value(8, 3, 1, -1), "34 0 0"),
        (remove(8, 4), "22 0 0"),
        (remove(8, 262_144), "22 0 0"),
        (remove(8, i32::MIN), "22 0 0"),
        (signal(0), "3 0 0"),
        (exit(9), "3 0 0"),
        (signal(8), "0 0 0"),
        (query(8, -1, 0), "22 0 0 0 0"),
        (query(8, 3, 2), "22 0 0 0 0"),
    ]);
}

/// +1, -1 in one array touches nothing, so the quick rule looks at nobody; the plain rule does.
#[test]
fn touched_means_another_value_at_the_end() {
    check_on_a_set(&[
        (operate(1, 0, &[(0, -1, 0)]), "-1@0 0 0"),
        (operate(2, 0, &[(0, 1, 0), (0, -1, 0)]), "0 0 0/1"),
        (set_value(8, 0, 0, 0), "0 0 1"),
        (set_value(8, 0, 1, 5), "0 0 0/1"),
    ]);
}

/// Clearing the adjustment makes the same array too large to be undone.
#[test]
fn set_value_to_the_same_number_can_wake() {
    let mut run = asleep_by_an_adjustment().to_vec();
    run.push((set_value(8, 0, 0, 0), "0 0 1 1=34@2"));
    check_on_a_set(&run);
}

/// A refused array doesn't, nor one that ends with 34, 11 or 4, a set value or an exit.
#[test]
fn only_a_done_array_sets_the_last_process() {
    check_on_a_set(&[
        (operate(6, 0, &[(4, 1, UNDO)]), "0 0 0"),
        (operate(1, 0, &[(0, 0, 0), (1, 1, 0), (2, 0, 0), (4, 1, 0)]), "0 0 0"),
        (operate(2, 0, &[(0, 0, 0), (3, -1, NOWAIT)]), "11@1 0 0"),
        (operate(2, 0, &[(0, 0, 0), (1, 32_767, 0)]), "34@1 0 0"),
        (operate(3, 0, &[(1, 32_766, 0), (3, -1, 0)]), "-1@1 0 0"),
        (operate(4, 0, &[(0, 0, NOWAIT), (3, -1, 0)]), "-1@1 0 0"),
        (operate(5, 0, &[(2, 0, 0), (3, -1, 0)]), "-1@1 0 0"),
        (set_value(8, 0, 1, 2), "0 0 1/3 3=34@0"),
        (set_value(8, 0, 0, 1), "0 0 1/2 4=11@0"),
        (signal(5), "0 0 0 5=4"),
        (exit(6), "0 0 0"),
        (query(8, 0, 0), "0 1 1 0 0"),
        (query(8, 0, 1), "0 2 1 0 0"),
        (query(8, 0, 2), "0 0 1 0 0"),
        (query(8, 0, 3), "0 0 0 0 0"),
        (query(8, 0, 4), "0 1 1 0 0"),
    ]);
}

#[test]
fn wait_counts_are_of_the_operation_that_stops_now() {
    check_on_a_set(&[
        (operate(1, 0, &[(0, -1, 0), (1, 0, 0)]), "-1@0 0 0"),
        (set_value(8, 0, 1, 3), "0 0 1"),
        (query(8, 0, 0), "0 0 0 1 0"),
        (query(8, 0, 1), "0 3 0 0 0"),
        (operate(2, 0, &[(0, 1, 0)]), "0 0 1"),
        (query(8, 0, 0), "0 1 2 0 0"),
        (query(8, 0, 1), "0 3 0 0 1"),
        (signal(1), "0 0 0 1=4"),
        (query(8, 0, 1), "0 3 0 0 0"),
    ]);
}

/// Each sleeper of the set is judged once and waits at one semaphore; that of another set is not.
#[test]
fn a_whole_set_at_once() {
    let mut host = Host::new(Rule::Quick);
    let bodies = [
        event::create(8, 3, 0o666),
        create(),
        operate(8, 0, &[(2, 3, 0)]),
        operate(1, 0, &[(2, -3, 0), (0, -1, 0)]),
        operate(2, 0, &[(0, -1, 0)]),
        operate(3, 0, &[(1, 1, 0), (2, 0, 0)]),
        operate(4, 1, &[(2, -1, 0)]),
    ];
    for body in &bodies {
        host.handle(&Event::decode(body).expect("a good body"));
    }
    let seen = host.query_set(8, 0).expect("a live set");
    let first = State { for_increase: 0b011, ..State::default() };
    let third = State { value: 3, last: 8, for_zero: 0b100, ..State::default() };
    assert!(seen.states().eq([first, State::default(), third]));
    assert_eq!(seen.judged, 3);
    assert_eq!(host.query_set(8, 1).map(|seen| seen.judged).ok(), Some(1));
    assert!(host.query_set(8, 2).is_err());
    assert!(host.query_set(8, -4).is_err());
}

/// Every set is adjusted before the first is treated; slot 0 comes first, and the sleeper that
/// exits has no waking.
#[test]
fn exit_treats_all_sets() {
    check_on_a_set(&[
        (create(), "0 1 0"),
        (set_value(8, 0, 0, 1), "0 0 0"),
        (set_value(8, 1, 0, 1), "0 0 0"),
        (operate(1, 0, &[(0, -1, UNDO)]), "0 0 0"),
        (operate(1, 1, &[(0, -1, UNDO)]), "0 0 0"),
        (operate(2, 1, &[(0, -1, 0)]), "-1@0 0 0"),
        (operate(3, 0, &[(1, -1, 0)]), "-1@0 0 0"),
        (operate(4, 0, &[(0, -1, 0)]), "-1@0 0 0"),
        (operate(1, 0, &[(7, -1, 0)]), "-1@0 0 0"),
        (exit(1), "0 0 2/4 4=0 2=0"),
        (query(8, 0, 0), "0 0 4 0 0"),
        (query(8, 0, 7), "0 0 0 0 0"),
    ]);
}

/// An ending with 11 begins a new round too: the plain rule looks at the oldest once more.
#[test]
fn an_ending_begins_a_new_round() {
    check_on_a_set(&[
        (operate(1, 0, &[(1, -1, 0)]), "-1@0 0 0"),
        (operate(2, 0, &[(0, 0, NOWAIT), (1, -1, 0)]), "-1@1 0 0"),
        (operate(3, 0, &[(0, 0, 0), (1, -1, 0)]), "-1@1 0 0"),
        (operate(4, 0, &[(0, 1, 0)]), "0 0 2/4 2=11@0"),
    ]);
}

/// The first operation that stops or gives 34 decides; IPC_NOWAIT counts only where it stops.
#[test]
fn the_first_operation_decides() {
    check_on_a_set(&[
        (operate(1, 0, &[(0, -1, NOWAIT), (1, -1, 0)]), "11@0 0 0"),
        (operate(1, 0, &[(0, -1, 0), (1, -1, NOWAIT)]), "-1@0 0 0"),
        (operate(2, 0, &[(1, 32_767, 0), (1, 1, 0), (2, -1, NOWAIT)]), "34@1 0 0"),
        (operate(2, 0, &[(2, -1, 0xE7FF), (1, 32_767, 0), (1, 1, 0)]), "-1@0 0 0"),
    ]);
}

/// A call has no operation of an earlier one, whether that slept or was refused.
#[test]
fn a_shorter_call_of_the_same_process() {
    let long = [vec![(0, 1, 0); 31], vec![(1, -1, 0)]].concat();
    check_on_a_set(&[
        (operate(1, 0, &long), "-1@31 0 0"),
        (signal(1), "0 0 0 1=4"),
        (operate(1, 0, &[(1, -1, 0)]), "-1@0 0 0"),
        (operate(1, 0, &long), "16 0 0"),
        (operate(2, 4, &long), "22 0 0"),
        (operate(2, 0, &[(1, 1, 0)]), "0 0 1 1=0"),
        (query(8, 0, 0), "0 0 0 0 0"),
    ]);
}
