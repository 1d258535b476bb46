//! All values of a set at once, set and read.

use second::event::{self, exit, operate, query, read_all, remove, set_all, set_value, Body};
use second::{Event, Host, Rule, NOWAIT, UNDO};

use crate::{asleep_by_an_adjustment, chain_of_seven, check, check_on_a_set, create};

/// A set of so many semaphores, everybody permitted.
fn create_of(count: u8) -> Body {
    event::create(8, count, 0o666)
}

/// An older process wants both, a younger one the first alone.
fn older_and_younger() -> Vec<(Body, &'static str)> {
    vec![
        (create_of(2), "0 0 0"),
        (operate(1, 0, &[(0, -1, 0), (1, -1, 0)]), "-1@0 0 0"),
        (operate(2, 0, &[(0, -1, 0)]), "-1@0 0 0"),
    ]
}

#[test]
fn at_once_the_older_wakes() {
    let mut run = older_and_younger();
    run.push((set_all(8, 0, &[1, 1]), "0 0 2 1=0"));
    run.push((read_all(8, 0), "0 0 1 0 0 0 0"));
    check(&run);
}

#[test]
fn one_by_one_the_younger_wakes() {
    let mut run = older_and_younger();
    run.push((set_value(8, 0, 0, 1), "0 0 3 2=0"));
    run.push((set_value(8, 0, 1, 1), "0 0 1"));
    run.push((read_all(8, 0), "0 0 1 0 1 0 0"));
    check(&run);
}

#[test]
fn a_chain_of_seven_by_all_values() {
    let mut run = chain_of_seven();
    let line = "0 0 13/28 7=0 6=0 5=0 4=0 3=0 2=0 1=0";
    run.push((set_all(8, 0, &[0, 0, 0, 0, 0, 0, 1, 0]), line));
    check_on_a_set(&run);
}

#[test]
fn sleepers_end_in_every_way() {
    check(&[
        (create_of(3), "0 0 0"),
        (operate(1, 0, &[(0, -1, 0)]), "-1@0 0 0"),
        (operate(2, 0, &[(1, 0, NOWAIT), (0, -9, 0)]), "-1@1 0 0"),
        (operate(3, 0, &[(2, 5, 0), (0, -9, 0)]), "-1@1 0 0"),
        (set_all(8, 0, &[1, 1, 32_767]), "0 0 3 1=0 2=11@0 3=34@0"),
        (read_all(8, 0), "0 0 0 0 1 0 0 32767 0 0"),
    ]);
}

/// Neither values nor adjustments, wherever it stands; and nobody is looked at.
#[test]
fn one_bad_value_changes_nothing() {
    for bad in [-1, 32_768, 65_536, i32::MIN, i32::MAX] {
        for place in 0..3 {
            let mut values = [9; 3];
            values[place] = bad;
            check(&[
                (create_of(3), "0 0 0"),
                (operate(1, 0, &[(0, 3, UNDO), (2, 4, UNDO)]), "0 0 0"),
                (operate(2, 0, &[(1, -5, 0)]), "-1@0 0 0"),
                (set_all(8, 0, &values), "34 0 0"),
                (read_all(8, 0), "0 3 0 0 0 1 0 4 0 0"),
                (exit(1), "0 0 0/1"),
                (read_all(8, 0), "0 0 0 0 0 1 0 0 0 0"),
            ]);
        }
    }
}

#[test]
fn both_ends_of_the_range_are_values() {
    check(&[
        (create_of(2), "0 0 0"),
        (set_all(8, 0, &[32_767, 0]), "0 0 0"),
        (read_all(8, 0), "0 32767 0 0 0 0 0"),
        (set_all(8, 0, &[0, 32_767]), "0 0 0"),
        (read_all(8, 0), "0 0 0 0 32767 0 0"),
    ]);
}

/// No live set, then the number of values, then the values.
#[test]
fn checks_of_a_setting_go_in_their_order() {
    check(&[
        (set_all(8, 0, &[1]), "22 0 0"),
        (create_of(3), "0 0 0"),
        (operate(1, 0, &[(0, -1, 0)]), "-1@0 0 0"),
        (set_all(8, 0, &[]), "22 0 0"),
        (set_all(8, 0, &[1, 1]), "22 0 0"),
        (set_all(8, 0, &[1, 1, 1, 1]), "22 0 0"),
        (set_all(8, 0, &[1; 8]), "22 0 0"),
        (set_all(8, 0, &[1; 9]), "22 0 0"),
        (set_all(8, 0, &[1; 255]), "22 0 0"),
        (set_all(8, 0, &[-1, 1]), "22 0 0"),
        (set_all(8, 0, &[1, 1, 1, 40_000]), "22 0 0"),
        (set_all(8, 4, &[-1; 3]), "22 0 0"),
        (set_all(8, 1, &[1; 3]), "22 0 0"),
        (set_all(8, -4, &[1; 3]), "22 0 0"),
        (set_all(8, 262_144, &[1; 3]), "22 0 0"),
        (set_all(8, 0, &[1, 1, -1]), "34 0 0"),
        (read_all(8, 0), "0 0 1 0 0 0 0 0 0 0"),
        (remove(8, 0), "0 0 0 1=43"),
        (set_all(8, 0, &[1; 3]), "22 0 0"),
    ]);
}

/// Eight are the most that a set can take.
#[test]
fn more_values_than_any_set_has() {
    check_on_a_set(&[
        (set_all(8, 0, &[1; 7]), "22 0 0"),
        (set_all(8, 0, &[1; 9]), "22 0 0"),
        (set_all(8, 0, &[1; 255]), "22 0 0"),
        (set_all(8, 0, &[-1; 9]), "22 0 0"),
        (set_all(8, 0, &[1; 8]), "0 0 0"),
    ]);
}

/// The adjustments are cleared before the looks, and those who wait elsewhere are looked at too.
#[test]
fn the_same_values_can_wake() {
    let mut run = asleep_by_an_adjustment().to_vec();
    run.push((operate(2, 0, &[(7, -1, 0)]), "-1@0 0 0"));
    run.push((set_all(8, 0, &[0; 8]), "0 0 2 1=34@2"));
    run.push((set_all(8, 0, &[0; 8]), "0 0 1"));
    check_on_a_set(&run);
}

/// Of all processes and all semaphores, but of no other set.
#[test]
fn adjustments_are_cleared() {
    check(&[
        (create_of(3), "0 0 0"),
        (create_of(1), "0 1 0"),
        (operate(1, 0, &[(0, 2, UNDO), (2, 1, UNDO)]), "0 0 0"),
        (operate(2, 0, &[(1, 3, UNDO)]), "0 0 0"),
        (operate(8, 0, &[(2, 4, UNDO), (2, -2, 0)]), "0 0 0"),
        (operate(8, 1, &[(0, 6, UNDO)]), "0 0 0"),
        (set_all(8, 0, &[5, 6, 3]), "0 0 0"),
        (exit(1), "0 0 0"),
        (exit(2), "0 0 0"),
        (read_all(8, 1), "0 6 0 0"),
        (exit(8), "0 0 0"),
        (read_all(8, 0), "0 5 0 0 6 0 0 3 0 0"),
        (read_all(8, 1), "0 0 0 0"),
    ]);
}

#[test]
fn last_processes_stay() {
    check(&[
        (create_of(2), "0 0 0"),
        (operate(4, 0, &[(0, 1, 0)]), "0 0 0"),
        (operate(5, 0, &[(1, -7, 0)]), "-1@0 0 0"),
        (set_all(8, 0, &[3, 7]), "0 0 1 5=0"),
        (query(8, 0, 0), "0 3 4 0 0"),
        (query(8, 0, 1), "0 0 5 0 0"),
        (set_all(8, 0, &[1, 1]), "0 0 0"),
        (query(8, 0, 0), "0 1 4 0 0"),
        (query(8, 0, 1), "0 1 5 0 0"),
    ]);
}

#[test]
fn only_its_own_set_is_treated() {
    check(&[
        (create_of(1), "0 0 0"),
        (create_of(1), "0 1 0"),
        (operate(1, 1, &[(0, -1, 0)]), "-1@0 0 0"),
        (operate(2, 0, &[(0, -1, 0)]), "-1@0 0 0"),
        (set_all(8, 0, &[1]), "0 0 1 2=0"),
        (set_all(8, 0, &[1]), "0 0 0"),
        (read_all(8, 1), "0 0 1 0"),
        (set_all(8, 1, &[2]), "0 0 1 1=0"),
    ]);
}

/// A sleeper waits where it stops now, and nowhere else.
#[test]
fn a_reading_shows_values_and_both_counts() {
    check(&[
        (create_of(2), "0 0 0"),
        (set_all(8, 0, &[1, 0]), "0 0 0"),
        (operate(1, 0, &[(0, -2, 0)]), "-1@0 0 0"),
        (operate(2, 0, &[(0, 0, 0)]), "-1@0 0 0"),
        (operate(3, 0, &[(1, -1, 0)]), "-1@0 0 0"),
        (operate(4, 0, &[(1, 0, 0), (0, 0, 0)]), "-1@1 0 0"),
        (read_all(8, 0), "0 1 1 2 0 1 0"),
        (set_all(8, 0, &[1, 0]), "0 0 4"),
        (read_all(8, 0), "0 1 1 2 0 1 0"),
    ]);
}

#[test]
fn a_reading_of_eight() {
    check_on_a_set(&[
        (read_all(8, 0), "0 0 0 0 0 0 0 0 0 0 0 0 0 0 0 0 0 0 0 0 0 0 0 0 0"),
        (set_all(8, 0, &[0, 10, 200, 3_000, 32_767, 5, 6, 7]), "0 0 0"),
        (operate(1, 0, &[(7, 0, 0)]), "-1@0 0 0"),
        (operate(2, 0, &[(0, -1, 0)]), "-1@0 0 0"),
        (operate(3, 0, &[(7, -8, 0)]), "-1@0 0 0"),
        (read_all(8, 0), "0 0 1 0 10 0 0 200 0 0 3000 0 0 32767 0 0 5 0 0 6 0 0 7 1 1"),
    ]);
}

#[test]
fn a_refused_reading_has_no_numbers() {
    check(&[
        (read_all(8, 0), "22"),
        (create(), "0 0 0"),
        (read_all(8, 4), "22"),
        (read_all(8, 1), "22"),
        (read_all(8, -1), "22"),
        (read_all(8, 262_144), "22"),
        (remove(8, 0), "0 0 0"),
        (read_all(8, 0), "22"),
    ]);
}

/// A body can hold only whole values, an event any bytes.
#[test]
fn bytes_that_are_no_whole_values() {
    let mut host = Host::new(Rule::Quick);
    host.handle(&Event::Create { process: 8, count: 2, mode: 0o666 });
    for (length, code) in [(7, 22), (8, 0), (9, 22), (11, 22), (12, 22)] {
        let event = Event::SetAll { process: 8, identifier: 0, values: &vec![0; length] };
        assert_eq!(host.handle(&event).code(), code, "{length} bytes");
    }
}
