//! Good and bad run files, byte by byte.

use second::event::{
    self, act_as, clock, exit, operate, query, read_all, remove, set_all, set_value, signal,
    timed_operate,
};
use second::{run_file, Rule};

use crate::{create, text};

fn line(file: &[u8]) -> String {
    text(file, Rule::Quick)
}

#[test]
fn the_whole_example_of_45_bytes() {
    let file = [
        0x03, 0x00, 0x0E, 0x00, 0x05, 0x00, 0x13, 0x00, 0x0D, 0x00, 0x20, 0x00, 0x0D, 0x00, 0x01,
        0x01, 0x01, 0xB6, 0x01, 0x02, 0x01, 0x00, 0x00, 0x00, 0x00, 0x01, 0x00, 0x00, 0xFF, 0xFF,
        0x00, 0x00, 0x02, 0x02, 0x00, 0x00, 0x00, 0x00, 0x01, 0x00, 0x00, 0x01, 0x00, 0x00, 0x00,
    ];
    assert_eq!(file.len(), 45);
    for rule in [Rule::Quick, Rule::Plain] {
        assert_eq!(text(&file, rule), "events 3\n0 0 0 0\n1 -1@0 0 0\n2 0 0 1 1=0\n");
    }
}

#[test]
fn two_zero_bytes_are_good() {
    assert_eq!(line(&[0, 0]), "events 0\n");
}

#[test]
fn head_or_table_cut_off_or_too_long() {
    let good = run_file(&[create(), exit(1)]);
    for length in 0..10 {
        assert_eq!(line(&good[..length]), "bad 201\n", "{length} bytes");
    }
    assert_eq!(line(&[0; 65_536]), "bad 201\n");
    assert_eq!(line(&[0; 65_535]), "bad 202\n");
}

#[test]
fn offsets_and_end() {
    let good = run_file(&[create(), exit(1)]);
    for place in [2, 4, 6, 8] {
        for step in [1, 255] {
            let mut file = good.clone();
            file[place] = file[place].wrapping_add(step);
            assert_eq!(line(&file), "bad 202\n", "byte {place} changed by {step}");
        }
    }
    assert_eq!(line(&good[..15]), "bad 202\n");
    assert_eq!(line(&[&good[..], &[0]].concat()), "bad 202\n");
    assert_eq!(line(&[0, 0, 0]), "bad 202\n");
    // 10 + 65,535 is 9 modulo 65,536 only.
    assert_eq!(line(&[2, 0, 10, 0, 255, 255, 9, 0, 3, 0, 5, 1]), "bad 202\n");
}

#[test]
fn bodies() {
    assert_eq!(line(&run_file(&[vec![]])), "bad 204\n");
    for kind in [0].into_iter().chain(13..=255) {
        assert_eq!(line(&run_file(&[vec![kind, 1]])), "bad 203\n", "kind {kind}");
    }
    let good = [
        create(),
        operate(1, 0, &[(0, 1, 0)]),
        set_value(8, 0, 0, 0),
        remove(8, 0),
        signal(1),
        exit(1),
        query(8, 0, 0),
        timed_operate(1, 0, 1, &[(0, 1, 0)]),
        clock(1),
        set_all(8, 0, &[0, 0]),
        read_all(8, 0),
        act_as(8, 7, 9),
    ];
    for body in good {
        assert_eq!(line(&run_file(&[body[..body.len() - 1].to_vec()])), "bad 204\n");
        assert_eq!(line(&run_file(&[[&body[..], &[0]].concat()])), "bad 204\n");
    }
}

/// Of the kinds that have one length.
#[test]
fn lengths() {
    let kinds = [(1, 5), (3, 12), (4, 6), (5, 2), (6, 2), (7, 8), (9, 9), (11, 6), (12, 10)];
    for (kind, right) in kinds {
        for length in (1..=20).filter(|&length| length != right) {
            let mut body = vec![0; length];
            body[0] = kind;
            assert_eq!(line(&run_file(&[body])), "bad 204\n", "kind {kind}, {length} bytes");
        }
    }
}

#[test]
fn bodies_that_name_no_caller() {
    let bodies = [
        vec![1, 1, 0xB6, 0x01],
        vec![3, 0, 0, 0, 0, 0, 0, 1, 0, 0, 0],
        vec![4, 0, 0, 0, 0],
        vec![7, 0, 0, 0, 0, 0, 0],
        vec![10, 0, 0, 0, 0, 0],
        vec![10, 0, 0, 0, 0, 1, 1, 0, 0, 0],
        vec![11, 0, 0, 0, 0],
        vec![12, 7, 0, 0, 0, 9, 0, 0, 0],
    ];
    for body in bodies {
        assert_eq!(line(&run_file(&[create(), body])), "bad 204\n");
    }
}

/// Cut off before or behind its number, or with operations that are not as many as it says.
#[test]
fn lengths_of_an_operate_with_a_wait() {
    let good = timed_operate(1, 0, 1, &[(0, 1, 0), (0, 1, 0)]);
    for length in (1..23).chain(24..36) {
        let mut body = good.clone();
        body.resize(length, 0);
        assert_eq!(line(&run_file(&[body])), "bad 204\n", "{length} bytes");
    }
    for number in [0, 1, 3, 130, 255] {
        let mut body = good.clone();
        body[10] = number;
        assert_eq!(line(&run_file(&[body])), "bad 204\n", "{number} operations");
    }
    // With the layout of an operate without a wait it is as bad.
    let mut body = operate(1, 0, &[(0, 1, 0), (0, 1, 0)]);
    body[0] = 8;
    assert_eq!(line(&run_file(&[body])), "bad 204\n");
}

/// Wait and time are little-endian and have no sign.
#[test]
fn bytes_of_an_operate_with_a_wait_and_a_time() {
    let bodies = [
        vec![1, 1, 1, 0xB6, 0x01],
        vec![8, 1, 0, 0, 0, 0, 0x02, 0x01, 0, 0, 1, 0, 0, 0xFF, 0xFF, 0, 0],
        vec![8, 2, 0, 0, 0, 0, 0, 0, 0, 0x80, 1, 0, 0, 0xFF, 0xFF, 0, 0],
        vec![8, 3, 0, 0, 0, 0, 0, 0, 0, 0, 1, 0, 0, 0xFF, 0xFF, 0, 0],
        vec![9, 0x01, 0x01, 0, 0, 0, 0, 0, 0],
        vec![9, 0x02, 0x01, 0, 0, 0, 0, 0, 0],
        vec![9, 0, 0, 0, 0, 0, 0, 0, 0x80],
        vec![9, 0xFF, 0xFF, 0xFF, 0x7F, 0, 0, 0, 0],
        vec![9, 0, 0, 0, 0x80, 0, 0, 0, 0],
        vec![9, 0xFF, 0xFF, 0xFF, 0xFF, 0xFF, 0xFF, 0xFF, 0x7F],
    ];
    let lines = "0 0 0 0\n1 -1@0 0 0\n2 -1@0 0 0\n3 11@0 0 0\n4 0 0 0\n5 0 0 0 1=11\n\
        6 22 0 0\n7 0 0 0\n8 0 0 0 2=11\n9 0 0 0\n";
    assert_eq!(line(&run_file(&bodies)), format!("events 10\n{lines}"));
    assert_eq!(bodies[1], timed_operate(1, 0, 258, &[(0, -1, 0)]));
    assert_eq!(bodies[2], timed_operate(2, 0, 1 << 31, &[(0, -1, 0)]));
    assert_eq!(bodies[5], clock(258));
    assert_eq!(bodies[6], clock(1 << 63));
}

/// With its kind, caller and identifier alone, or with values that are not as many as it says.
#[test]
fn lengths_of_a_setting() {
    let good = set_all(8, 0, &[1, 2]);
    for length in (1..15).chain(16..20) {
        let mut body = good.clone();
        body.resize(length, 0);
        assert_eq!(line(&run_file(&[body])), "bad 204\n", "{length} bytes");
    }
    for number in [0, 1, 3, 66, 130, 255] {
        let mut body = good.clone();
        body[6] = number;
        assert_eq!(line(&run_file(&[body])), "bad 204\n", "{number} values");
    }
}

/// Values are little-endian and have a sign.
#[test]
fn bytes_of_a_setting_and_a_reading() {
    let bodies = [
        vec![1, 1, 2, 0xB6, 0x01],
        vec![10, 3, 0, 0, 0, 0, 2, 0x02, 0x01, 0, 0, 0xFF, 0x7F, 0, 0],
        vec![10, 3, 0, 0, 0, 0, 2, 0, 0, 0, 0, 0x00, 0x80, 0, 0],
        vec![10, 3, 0, 0, 0, 0, 2, 0, 0, 0, 0, 0xFF, 0xFF, 0xFF, 0xFF],
        vec![10, 3, 0, 0, 0, 0, 2, 0, 0, 0, 0, 0x00, 0x00, 0, 1],
        vec![11, 3, 0, 0, 0, 0],
        vec![11, 3, 1, 0, 0, 0],
    ];
    let lines = "0 0 0 0\n1 0 0 0\n2 34 0 0\n3 34 0 0\n4 34 0 0\n5 0 258 0 0 32767 0 0\n6 22\n";
    assert_eq!(line(&run_file(&bodies)), format!("events 7\n{lines}"));
    assert_eq!(bodies[1], set_all(3, 0, &[258, 32_767]));
    assert_eq!(bodies[3], set_all(3, 0, &[0, -1]));
    assert_eq!(bodies[6], read_all(3, 1));
}

/// Each event has its fields in their order, behind its caller; mode, user and group are
/// little-endian and have no sign.
#[test]
fn bytes_of_calls() {
    let bodies = [
        vec![12, 2, 0x04, 0x03, 0x02, 0x81, 0x14, 0x13, 0x12, 0x91],
        vec![1, 2, 3, 0xA0, 0x01],
        vec![3, 2, 0, 0, 0, 0, 1, 0, 0x05, 0x01, 0, 0],
        vec![12, 1, 0x05, 0, 0, 0, 0x14, 0x13, 0x12, 0x91],
        vec![7, 1, 0, 0, 0, 0, 1, 0],
        vec![3, 1, 0, 0, 0, 0, 1, 0, 0, 0, 0, 0],
        vec![12, 1, 0x14, 0x13, 0x12, 0x91, 0x04, 0x03, 0x02, 0x81],
        vec![11, 1, 0, 0, 0, 0],
        vec![4, 1, 0, 0, 0, 0],
        vec![4, 2, 0, 0, 0, 0],
        vec![1, 2, 1, 0x00, 0x02],
        vec![1, 2, 1, 0xFF, 0x01],
    ];
    let lines = "0 0 0 0\n1 0 0 0\n2 0 0 0\n3 0 0 0\n4 0 261 0 0 0\n5 13 0 0\n6 0 0 0\n7 13\n\
        8 1 0 0\n9 0 0 0\n10 22 0 0\n11 0 4 0\n";
    assert_eq!(line(&run_file(&bodies)), format!("events 12\n{lines}"));
    let written = [
        act_as(2, 0x8102_0304, 0x9112_1314),
        event::create(2, 3, 0o640),
        set_value(2, 0, 1, 261),
        act_as(1, 5, 0x9112_1314),
        query(1, 0, 1),
        set_value(1, 0, 1, 0),
        act_as(1, 0x9112_1314, 0x8102_0304),
        read_all(1, 0),
        remove(1, 0),
        remove(2, 0),
        event::create(2, 1, 512),
        event::create(2, 1, 511),
    ];
    assert_eq!(bodies, written);
}

/// The first bad event decides, and offsets come before all bodies.
#[test]
fn order_of_the_checks() {
    assert_eq!(line(&run_file(&[exit(1), vec![], vec![13]])), "bad 204\n");
    assert_eq!(line(&run_file(&[exit(1), vec![13], vec![]])), "bad 203\n");
    let mut file = run_file(&[vec![13], vec![]]);
    file.push(0);
    assert_eq!(line(&file), "bad 202\n");
}

#[test]
fn any_number_of_operations_with_the_matching_length_is_a_good_file() {
    for number in 0..=255 {
        let code = if number <= 32 { 22 } else { 7 };
        let array = vec![(0, 0, 0); number];
        for body in [operate(1, 0, &array), timed_operate(1, 0, 1, &array)] {
            assert_eq!(line(&run_file(&[body])), format!("events 1\n0 {code} 0 0\n"));
        }
    }
}

#[test]
fn any_number_of_values_with_the_matching_length_is_a_good_file() {
    for number in 0..=255 {
        let code = if number == 8 { 0 } else { 22 };
        let file = run_file(&[create(), set_all(8, 0, &vec![0; number])]);
        assert_eq!(line(&file), format!("events 2\n0 0 0 0\n1 {code} 0 0\n"));
    }
}
