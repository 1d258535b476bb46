//! The position of the operation that decided.

use second::event::{exit, operate, remove, set_value, signal, Operation};
use second::{NOWAIT, UNDO};

use crate::check_on_a_set;

/// An operation behind so many that go through.
fn behind(position: usize, operation: Operation) -> Vec<Operation> {
    [vec![(7, 1, 0); position], vec![operation]].concat()
}

#[test]
fn an_operate_names_any_of_its_operations() {
    for position in 0..32 {
        let line = |code: i32| format!("{code}@{position} 0 0");
        check_on_a_set(&[
            (set_value(8, 0, 0, 1), "0 0 0"),
            (operate(1, 0, &behind(position, (0, -2, NOWAIT))), &line(11)),
            (operate(1, 0, &behind(position, (0, 32_767, 0))), &line(34)),
            (operate(1, 0, &behind(position, (0, 0, 0))), &line(-1)),
        ]);
    }
}

/// Of two operations on the semaphore it is the one whose subtraction leaves the range, and within
/// one operation the stop comes first.
#[test]
fn an_adjustment_names_its_operation() {
    check_on_a_set(&[
        (operate(1, 0, &[(0, 32_767, UNDO)]), "0 0 0"),
        (operate(2, 0, &[(0, -32_767, UNDO)]), "0 0 0"),
        (operate(1, 0, &[(0, 1, UNDO), (0, 1, 0)]), "34@0 0 0"),
        (operate(1, 0, &[(1, 1, UNDO), (0, 1, 0), (0, 1, UNDO), (1, -9, 0)]), "34@2 0 0"),
        (operate(3, 0, &[(0, 2, 0)]), "0 0 0"),
        (operate(2, 0, &[(0, -1, 0), (0, -1, UNDO)]), "34@1 0 0"),
        (operate(2, 0, &[(0, -1, 0), (0, -2, UNDO)]), "-1@1 0 0"),
    ]);
}

/// Before the operation where the call went to sleep, and behind it.
#[test]
fn a_waking_names_where_its_look_decided() {
    check_on_a_set(&[
        (operate(1, 0, &[(0, 0, NOWAIT), (1, -1, 0)]), "-1@1 0 0"),
        (operate(8, 0, &[(0, 1, 0)]), "0 0 1 1=11@0"),
        (operate(2, 0, &[(2, 0, 0), (1, -1, 0), (3, 0, 0), (4, -1, NOWAIT)]), "-1@1 0 0"),
        (set_value(8, 0, 1, 1), "0 0 1 2=11@3"),
        (operate(3, 0, &[(5, 32_767, 0), (1, -2, 0)]), "-1@1 0 0"),
        (operate(4, 0, &[(1, -2, 0), (6, 32_767, 0), (6, 1, 0)]), "-1@0 0 0"),
        (operate(8, 0, &[(5, 1, UNDO)]), "0 0 1/2 3=34@0"),
        (operate(5, 0, &[(5, 0, 0), (6, -1, NOWAIT)]), "-1@0 0 0"),
        (exit(8), "0 0 1/3 5=11@1"),
        (set_value(8, 0, 1, 2), "0 0 1 4=34@2"),
    ]);
}

/// What the looks in between found does not count.
#[test]
fn a_sleeper_may_stop_at_several() {
    check_on_a_set(&[
        (operate(1, 0, &[(0, -1, 0), (1, -1, 0), (2, 0, 0), (3, -1, NOWAIT)]), "-1@0 0 0"),
        (set_value(8, 0, 2, 1), "0 0 1"),
        (set_value(8, 0, 0, 1), "0 0 1"),
        (set_value(8, 0, 1, 1), "0 0 1"),
        (set_value(8, 0, 2, 0), "0 0 1 1=11@3"),
    ]);
}

/// Only an adjustment can end a sleeper where it waits.
#[test]
fn a_waking_may_name_where_the_call_went_to_sleep() {
    check_on_a_set(&[
        (set_value(8, 0, 0, 32_767), "0 0 0"),
        (operate(1, 0, &[(0, -32_767, UNDO)]), "0 0 0"),
        (operate(1, 0, &[(1, 0, 0), (0, -1, UNDO)]), "-1@1 0 0"),
        (operate(2, 0, &[(0, 1, 0)]), "0 0 1 1=34@1"),
    ]);
}

/// A check, the range of a set value, an array that is done, a signal and a removal name none.
#[test]
fn else_there_is_no_position() {
    let array = [(1, 0, 0), (0, -1, 0)];
    check_on_a_set(&[
        (operate(1, 0, &array), "-1@1 0 0"),
        (operate(1, 0, &array), "16 0 0"),
        (operate(2, 0, &[(1, 0, 0), (8, 0, 0)]), "27 0 0"),
        (set_value(8, 0, 0, 32_768), "34 0 0"),
        (signal(1), "0 0 0 1=4"),
        (operate(1, 0, &array), "-1@1 0 0"),
        (operate(2, 0, &array), "-1@1 0 0"),
        (operate(3, 0, &[(0, 1, 0)]), "0 0 2 1=0"),
        (remove(8, 0), "0 0 0 2=43"),
    ]);
}
