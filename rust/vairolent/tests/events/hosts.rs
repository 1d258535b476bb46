//! Hosts as values, identifiers, and what a query shows.

use vairolent::{Answer, Host, Operation, Semaphore};

use crate::{sleep, with_set};

#[test]
fn equal_when_the_state_is_the_same() {
    assert_eq!(Host::new(), Host::default());
    let (mut host, set) = with_set(2);
    let before = host.clone();
    sleep(&mut host, set, &[3], &[Operation::new(1, -1)]);
    assert_ne!(host, before);
    assert!(host.exit(3).is_ok());
    assert_eq!(host, before);
    // Users and groups are a part of the state.
    for (user, group) in [(7, 0), (0, 7)] {
        assert_eq!(host.act_as(3, user, group), Ok(()));
        assert_ne!(host, before);
    }
    assert_eq!(host.act_as(3, 0, 0), Ok(()));
    assert_eq!(host, before);
    // A removed set leaves its slot with another generation.
    assert!(host.remove(8, set).is_ok());
    assert_ne!(host, Host::new());
}

#[test]
fn a_clone_goes_its_own_way() {
    let (mut host, set) = with_set(1);
    let mut copy = host.clone();
    let add = [Operation::new(0, 1)];
    assert!(matches!(copy.operate(1, set, &add), Ok(Answer::Done(_))));
    assert_eq!(host.query(1, set, 0).map(|semaphore| semaphore.value), Ok(0));
    assert!(matches!(host.operate(1, set, &add), Ok(Answer::Done(_))));
    assert_eq!(host, copy);
}

#[test]
fn a_host_goes_to_other_threads() {
    fn goes<T: Send + Sync + 'static>(_: &T) {}
    goes(&Host::new());
}

#[test]
fn every_number_of_a_query() {
    let (mut host, set) = with_set(3);
    assert!(matches!(host.operate(8, set, &[Operation::new(2, 300)]), Ok(Answer::Done(_))));
    sleep(&mut host, set, &[1, 4], &[Operation::new(2, -301)]);
    sleep(&mut host, set, &[2, 3, 7], &[Operation::new(2, 0)]);
    sleep(&mut host, set, &[5], &[Operation::new(2, -1), Operation::new(0, -1)]);
    let wanted = Semaphore {
        value: 300,
        last: 8,
        increase: 2,
        zero: 3,
        increase_mask: 0b0000_1001,
        zero_mask: 0b0100_0110,
    };
    assert_eq!(host.query(6, set, 2), Ok(wanted));
    let wanted = Semaphore {
        value: 0,
        last: 0,
        increase: 1,
        zero: 0,
        increase_mask: 0b0001_0000,
        zero_mask: 0,
    };
    assert_eq!(host.query(6, set, 0), Ok(wanted));
}

#[test]
fn every_number_of_a_whole_set() {
    let (mut host, set) = with_set(3);
    let other = host.create(6, 8, 0o666).expect("a slot is free");
    assert!(matches!(host.operate(8, set, &[Operation::new(2, 300)]), Ok(Answer::Done(_))));
    assert!(matches!(host.operate(7, set, &[Operation::new(0, 5)]), Ok(Answer::Done(_))));
    sleep(&mut host, set, &[1, 4], &[Operation::new(0, -5), Operation::new(2, -301)]);
    sleep(&mut host, set, &[2], &[Operation::new(1, 1), Operation::new(0, 0)]);
    sleep(&mut host, other, &[3], &[Operation::new(7, -1)]);
    let seen = host.query_set(8, set).expect("a live set");
    let none =
        Semaphore { value: 0, last: 0, increase: 0, zero: 0, increase_mask: 0, zero_mask: 0 };
    let first = Semaphore { value: 5, last: 7, zero: 1, zero_mask: 0b0000_0010, ..none };
    let third = Semaphore { value: 300, last: 8, increase: 2, increase_mask: 0b0000_1001, ..none };
    assert_eq!(seen.semaphores(), [first, none, third]);
    // The sleeper of the other set is not judged.
    assert_eq!(seen.judged(), 3);
    let seen = host.query_set(8, other).expect("a live set");
    let last = Semaphore { increase: 1, increase_mask: 0b0000_0100, ..none };
    assert_eq!(seen.semaphores(), [none, none, none, none, none, none, none, last]);
    assert_eq!(seen.judged(), 1);
}

/// The values of a set, as they can be set.
fn values(host: &Host, set: i32) -> Vec<i32> {
    let seen = host.query_set(8, set).expect("a live set");
    seen.semaphores().iter().map(|semaphore| semaphore.value.into()).collect()
}

#[test]
fn all_values_at_once_or_each_by_itself() {
    for count in 1..=8 {
        let (mut host, set) = with_set(count);
        let other = host.create(1, 1, 0o666).expect("a slot is free");
        for (process, number) in (1..=8).zip(0..u16::from(count)) {
            let hold = [Operation::new(number, 3).undo()];
            assert!(matches!(host.operate(process, set, &hold), Ok(Answer::Done(_))));
            let hold = [Operation::new(0, 1).undo()];
            assert!(matches!(host.operate(process, other, &hold), Ok(Answer::Done(_))));
        }
        let mut each = host.clone();
        let wanted = &[32_767, 0, 1, 256, 255, 32_512, 2, 3][..usize::from(count)];
        assert_eq!(host.set_all(1, set, wanted).map(|wakings| wakings.looks()), Ok(0));
        for (number, &value) in (0..).zip(wanted) {
            assert!(each.set_value(1, set, number, value).is_ok());
        }
        assert_eq!(host, each);
        assert_eq!(values(&host, set), wanted);
        // Nothing is given back of the first set, and all of the other one.
        assert!((1..=8).all(|process| host.exit(process).is_ok()));
        assert_eq!(values(&host, set), wanted);
        assert_eq!(values(&host, other), [0]);
    }
}

#[test]
fn what_is_read_can_be_set_again() {
    let (mut host, set) = with_set(3);
    assert!(matches!(host.operate(8, set, &[Operation::new(2, 300)]), Ok(Answer::Done(_))));
    sleep(&mut host, set, &[1, 4], &[Operation::new(2, -301)]);
    sleep(&mut host, set, &[2], &[Operation::new(1, -1)]);
    let before = host.clone();
    let read = values(&host, set);
    assert_eq!(read, [0, 0, 300]);
    // Everybody is judged, and sleeps on.
    let wakings = host.set_all(8, set, &read).expect("set");
    assert_eq!((wakings.len(), wakings.looks()), (0, 3));
    assert_eq!(host, before);
}

#[test]
fn flags_other_than_the_two_are_ignored() {
    let (mut host, set) = with_set(1);
    let others = !(Operation::NOWAIT | Operation::UNDO);
    sleep(&mut host, set, &[1], &[Operation { number: 0, amount: i16::MIN, flags: others }]);
    let both = Operation::new(0, 1).undo().nowait();
    assert_eq!(both.flags, Operation::UNDO | Operation::NOWAIT);
    assert!(matches!(host.operate(2, set, &[both]), Ok(Answer::Done(_))));
    assert!(host.exit(2).is_ok());
    assert_eq!(host.query(2, set, 0).map(|semaphore| semaphore.value), Ok(0));
}

#[test]
fn identifiers_go_round() {
    let mut host = Host::new();
    for slot in 0..4 {
        assert_eq!(host.create(1, 1, 0o666), Ok(slot));
    }
    for generation in 0..=65_535 {
        assert!(host.remove(1, 3 + 4 * generation).is_ok());
        let next = (generation + 1) % 65_536;
        assert_eq!(host.create(1, 1, 0o666), Ok(3 + 4 * next));
    }
}
