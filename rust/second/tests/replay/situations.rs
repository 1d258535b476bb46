//! The situations on the reviewer's desk, as whole runs.

use second::event::{exit, operate, query, remove, set_value};
use second::{Event, Host, Rule, NOWAIT, UNDO};

use crate::{chain_of_seven, check_on_a_set, create};

#[test]
fn situation_1_an_array_is_judged_in_order() {
    check_on_a_set(&[
        (operate(1, 0, &[(0, 1, 0), (0, -1, 0)]), "0 0 0"),
        (query(8, 0, 0), "0 0 1 0 0"),
        (operate(2, 0, &[(0, -1, 0), (0, 1, 0)]), "-1@0 0 0"),
        (query(8, 0, 0), "0 0 1 1 0"),
    ]);
}

#[test]
fn situation_2_the_largest_value() {
    check_on_a_set(&[
        (set_value(8, 0, 0, 32_766), "0 0 0"),
        (operate(1, 0, &[(0, 1, 0)]), "0 0 0"),
        (query(8, 0, 0), "0 32767 1 0 0"),
        (operate(2, 0, &[(0, 1, 0)]), "34@0 0 0"),
        (query(8, 0, 0), "0 32767 1 0 0"),
    ]);
}

#[test]
fn situation_3_the_smallest_amount_always_stops() {
    check_on_a_set(&[
        (set_value(8, 0, 0, 32_767), "0 0 0"),
        (operate(1, 0, &[(0, -32_768, NOWAIT)]), "11@0 0 0"),
        (operate(1, 0, &[(0, -32_768, 0)]), "-1@0 0 0"),
        (query(8, 0, 0), "0 32767 0 1 0"),
    ]);
}

#[test]
fn situation_4_undo_is_cut_at_zero() {
    check_on_a_set(&[
        (operate(1, 0, &[(0, 3, UNDO)]), "0 0 0"),
        (operate(2, 0, &[(0, -2, 0)]), "0 0 0"),
        (exit(1), "0 0 0"),
        (query(8, 0, 0), "0 0 2 0 0"),
    ]);
}

#[test]
fn situation_5_undo_is_cut_at_the_largest_value() {
    check_on_a_set(&[
        (operate(1, 0, &[(0, 10, 0)]), "0 0 0"),
        (operate(1, 0, &[(0, -10, UNDO)]), "0 0 0"),
        (operate(2, 0, &[(0, 32_765, 0)]), "0 0 0"),
        (exit(1), "0 0 0"),
        (query(8, 0, 0), "0 32767 2 0 0"),
    ]);
}

#[test]
fn situation_6_set_value_clears_adjustments() {
    check_on_a_set(&[
        (set_value(8, 0, 0, 5), "0 0 0"),
        (operate(1, 0, &[(0, -5, UNDO)]), "0 0 0"),
        (set_value(8, 0, 0, 1), "0 0 0"),
        (exit(1), "0 0 0"),
        (query(8, 0, 0), "0 1 1 0 0"),
    ]);
}

#[test]
fn situation_7_woken_with_34() {
    check_on_a_set(&[
        (operate(1, 0, &[(0, 5, 0), (1, -1, 0)]), "-1@1 0 0"),
        (set_value(8, 0, 0, 32_765), "0 0 1 1=34@0"),
        (query(8, 0, 0), "0 32765 0 0 0"),
    ]);
}

#[test]
fn situation_8_woken_with_11() {
    check_on_a_set(&[
        (operate(1, 0, &[(0, 0, NOWAIT), (1, -1, 0)]), "-1@1 0 0"),
        (set_value(8, 0, 0, 1), "0 0 1 1=11@0"),
        (query(8, 0, 1), "0 0 0 0 0"),
    ]);
}

#[test]
fn situation_9_adjustment_out_of_range() {
    check_on_a_set(&[
        (operate(1, 0, &[(0, 32_767, UNDO)]), "0 0 0"),
        (operate(2, 0, &[(0, -1, 0)]), "0 0 0"),
        (operate(1, 0, &[(0, 1, UNDO)]), "34@0 0 0"),
        (query(8, 0, 0), "0 32766 2 0 0"),
    ]);
}

#[test]
fn situation_10_the_newer_is_woken() {
    check_on_a_set(&[
        (operate(1, 0, &[(0, -2, 0)]), "-1@0 0 0"),
        (operate(2, 0, &[(0, -1, 0)]), "-1@0 0 0"),
        (operate(3, 0, &[(0, 1, 0)]), "0 0 3 2=0"),
        (query(8, 0, 0), "0 0 2 1 0"),
    ]);
}

#[test]
fn situation_11_a_chain_of_seven() {
    let mut run = chain_of_seven();
    run.push((set_value(8, 0, 6, 1), "0 0 7/28 7=0 6=0 5=0 4=0 3=0 2=0 1=0"));
    check_on_a_set(&run);
}

/// The eighth sleeps too, until it exits and gives back what starts the chain.
#[test]
fn situation_11_by_an_exit() {
    let mut run = vec![(operate(8, 0, &[(6, 1, 0), (6, -1, UNDO)]), "0 0 0")];
    run.extend(chain_of_seven());
    run.push((operate(8, 0, &[(7, -1, 0)]), "-1@0 0 0"));
    run.push((exit(8), "0 0 7/28 7=0 6=0 5=0 4=0 3=0 2=0 1=0"));
    check_on_a_set(&run);
}

#[test]
fn situation_12_removal_ends_sleepers_and_identifiers() {
    check_on_a_set(&[
        (operate(3, 0, &[(0, -1, 0)]), "-1@0 0 0"),
        (operate(5, 0, &[(1, -1, 0)]), "-1@0 0 0"),
        (remove(8, 0), "0 0 0 3=43 5=43"),
        (create(), "0 4 0"),
        (query(8, 0, 0), "22 0 0 0 0"),
        (query(8, 4, 0), "0 0 0 0 0"),
    ]);
}

/// No run file is long enough for this half of situation 12.
#[test]
fn situation_12_the_generation_goes_round() {
    let mut host = Host::new(Rule::Quick);
    let create = Event::Create { process: 8, count: 1, mode: 0o666 };
    host.handle(&create);
    for generation in 0..=65_535 {
        assert_eq!(first_identifier(&host), Some(4 * generation));
        assert_eq!(
            host.handle(&Event::Remove { process: 8, identifier: 4 * generation }).code(),
            0
        );
        host.handle(&create);
    }
    assert_eq!(first_identifier(&host), Some(0));
    assert_eq!(host.handle(&Event::Remove { process: 8, identifier: 262_144 }).code(), 22);
}

fn first_identifier(host: &Host) -> Option<i32> {
    host.live_sets().map(|(identifier, _)| identifier).next()
}

#[test]
fn situation_13_thirty_two_is_the_limit() {
    let ones = [(7, 1, 0); 255];
    check_on_a_set(&[
        (operate(1, 0, &ones[..32]), "0 0 0"),
        (query(8, 0, 7), "0 32 1 0 0"),
        (operate(1, 0, &ones[..33]), "7 0 0"),
        (operate(1, 0, &ones), "7 0 0"),
        (set_value(8, 0, 7, 0), "0 0 0"),
        (operate(1, 0, &[(7, 0, 0)]), "0 0 0"),
        (operate(1, 0, &[(8, 0, 0)]), "27 0 0"),
    ]);
}

#[test]
fn situation_14_a_zero_operation_sets_the_last_process() {
    check_on_a_set(&[
        (query(8, 0, 0), "0 0 0 0 0"),
        (operate(4, 0, &[(0, 0, 0)]), "0 0 0"),
        (query(8, 0, 0), "0 0 4 0 0"),
    ]);
}

#[test]
fn situation_15_so_does_one_that_is_woken() {
    check_on_a_set(&[
        (set_value(8, 0, 0, 1), "0 0 0"),
        (operate(2, 0, &[(0, 0, 0), (1, 0, 0)]), "-1@0 0 0"),
        (query(8, 0, 0), "0 1 0 0 1"),
        (query(8, 0, 1), "0 0 0 0 0"),
        (operate(3, 0, &[(0, -1, 0)]), "0 0 1 2=0"),
        (query(8, 0, 0), "0 0 2 0 0"),
        (query(8, 0, 1), "0 0 2 0 0"),
    ]);
}

#[test]
fn situation_18_sleepers_with_thirty_two_operations() {
    let takes = [vec![(0, 1, 0); 31], vec![(1, -1, 0)]].concat();
    let overflows = [vec![(1, -2, 0)], vec![(0, 1, 0); 30], vec![(0, 32_767, 0)]].concat();
    check_on_a_set(&[
        (operate(1, 0, &takes), "-1@31 0 0"),
        (operate(2, 0, &overflows), "-1@0 0 0"),
        (set_value(8, 0, 1, 3), "0 0 2 1=0 2=34@31"),
        (query(8, 0, 0), "0 31 1 0 0"),
        (query(8, 0, 1), "0 2 1 0 0"),
    ]);
}
