//! Events as data: their bodies and lines are those of run files, and adjustments are what exits add.

use second::Rule;
use vairolent::{Event, Host, Operation, OPERATIONS, PROCESSES, SEMAPHORES, SETS};

/// A run file of these bodies.
fn run_file(bodies: &[Vec<u8>]) -> Vec<u8> {
    let mut file = (bodies.len() as u16).to_le_bytes().to_vec();
    let mut offset = 2 + 4 * bodies.len();
    for body in bodies {
        file.extend((offset as u16).to_le_bytes());
        file.extend((body.len() as u16).to_le_bytes());
        offset += body.len();
    }
    file.extend(bodies.iter().flatten());
    file
}

/// Every kind, done and refused, with numbers whose bytes all differ.
fn events<'a>(operations: &'a [Operation], values: &'a [i32]) -> Vec<Event<'a>> {
    let identifier = 0x0102_0304;
    let operate = |process, identifier, wait, operations| Event::Operate {
        process,
        identifier,
        wait,
        operations,
    };
    vec![
        Event::ActAs { process: 4, user: 0x0102_0304, group: 0x0506_0708 },
        Event::ActAs { process: 9, user: 1, group: 2 },
        Event::Create { process: 5, count: 3, mode: 0o640 },
        Event::Create { process: 5, count: 9, mode: 0x0203 },
        operate(1, 0, None, operations),
        operate(2, 0, Some(0x0506_0708), operations),
        operate(8, 0, None, &operations[..1]),
        operate(3, identifier, Some(1), &[]),
        operate(3, 0, Some(0), operations),
        Event::SetValue { process: 5, identifier, number: 0x0a0b, value: 0x0c0d_0e0f },
        Event::SetAll { process: 5, identifier: 0, values },
        Event::SetAll { process: 5, identifier, values: &[] },
        Event::Query { process: 5, identifier: 0, number: 2 },
        Event::Query { process: 4, identifier: 0, number: 2 },
        Event::Query { process: 8, identifier, number: 0x0a0b },
        Event::ReadAll { process: 5, identifier: 0 },
        Event::ReadAll { process: 4, identifier: 0 },
        Event::ReadAll { process: 5, identifier },
        Event::Clock { time: 0x0506_0708 },
        Event::Clock { time: u64::MAX },
        Event::Signal { process: 1 },
        Event::Signal { process: 9 },
        Event::SetValue { process: 6, identifier: 0, number: 1, value: 700 },
        Event::Exit { process: 2 },
        Event::Remove { process: 7, identifier },
        Event::Remove { process: 4, identifier: 0 },
        Event::Remove { process: 5, identifier: 0 },
    ]
}

#[test]
fn bodies_and_lines_are_those_of_run_files() {
    let operations = [Operation::new(1, -0x0102).undo(), Operation::new(2, 0).nowait()];
    let events = events(&operations, &[5, 0x0304, 0]);
    let mut host = Host::new();
    let (mut text, mut bodies) = (format!("events {}\n", events.len()), Vec::new());
    for (position, event) in events.iter().enumerate() {
        bodies.push(event.body().expect("a short array"));
        let told = host.run(event);
        text += &format!("{position} {}\n", event.line(&told));
    }
    let wanted = second::replay(&run_file(&bodies), Rule::Quick);
    assert_eq!(text, String::from_utf8(wanted).expect("a text"));
}

/// One more than a byte can count.
#[test]
fn an_array_that_no_body_holds_has_none() {
    let operate = |operations| Event::Operate { process: 1, identifier: 0, wait: None, operations };
    let operations = [Operation::new(0, 1); 256];
    assert!(operate(&operations).body().is_none());
    assert_eq!(operate(&operations[..255]).body().map(|body| body.len()), Some(7 + 6 * 255));
    let set_all = |values| Event::SetAll { process: 1, identifier: 0, values };
    assert!(set_all(&[0; 256]).body().is_none());
    assert!(set_all(&[0; 255]).body().is_some());
    assert!(operations.len() > OPERATIONS);
}

/// Each process has its own adjustment for each semaphore; its exit adds them, and they are 0 then.
#[test]
fn adjustments_are_what_exits_add() {
    let mut host = Host::new();
    let sets = [0; SETS].map(|_| host.create(1, SEMAPHORES as u8, 0o666).expect("made"));
    let amount = |process: u8, slot: usize, number: u16| {
        1 + 40 * i16::from(process) + 9 * slot as i16 + number as i16
    };
    for process in 1..=PROCESSES as u8 {
        for (slot, &set) in sets.iter().enumerate() {
            for number in 0..SEMAPHORES as u16 {
                let operation = Operation::new(number, amount(process, slot, number)).undo();
                let _ = host.operate(process, set, &[operation]).expect("done");
            }
        }
    }
    for process in 1..=PROCESSES as u8 {
        let before = host.clone();
        let adjustments = host.adjustments(process);
        let _ = host.exit(process).expect("done");
        for (slot, &set) in sets.iter().enumerate() {
            for number in 0..SEMAPHORES as u16 {
                let adjustment = adjustments[slot][usize::from(number)];
                assert_eq!(adjustment, -amount(process, slot, number));
                let [was, is] =
                    [&before, &host].map(|host| host.query(1, set, number).expect("seen").value);
                assert_eq!(i32::from(is), i32::from(was) + i32::from(adjustment));
            }
        }
        assert_eq!(host.adjustments(process), [[0; SEMAPHORES]; SETS]);
    }
    assert_eq!([host.adjustments(0), host.adjustments(9)], [[[0; SEMAPHORES]; SETS]; 2]);
}
