//! More callers than the service has numbers: seven, and a spare one for those who need it for a
//! moment only.

use vairolent::Operation;

use crate::client::{operate, Client, EAGAIN, EINTR, EINVAL, ENOSPC, FOREVER};
use crate::client::{REMOVE, SET_ALL, SET_VALUE};
use crate::daemon::Daemon;
use crate::folder::Folder;
use crate::process::Process;

const TAKE: Operation = Operation::new(0, -1);
const GIVE: Operation = Operation::new(0, 1);

/// Seven that sleep, each in its own connection.
fn seven_asleep(folder: &Folder, client: &Client, set: i32) -> Vec<Client> {
    let sleepers: Vec<Client> = (0..7).map(|_| Client::new(folder)).collect();
    sleepers.iter().for_each(|sleeper| sleeper.begin(set, FOREVER, TAKE));
    client.see_asleep(7);
    sleepers
}

#[test]
fn seven_sleep_and_the_spare_number_wakes_them() {
    let folder = Folder::new();
    let daemon = Daemon::start(&folder);
    let client = Client::new(&folder);
    let set = client.make(2);
    let sleepers = seven_asleep(&folder, &client, set);

    assert_eq!(client.operate(set, &[TAKE]), ENOSPC, "an eighth that would sleep");
    assert_eq!(client.call(&operate(set, 50_000_000, &[TAKE])).code, ENOSPC, "for a while");
    assert_eq!(client.operate(set, &[GIVE.undo()]), ENOSPC, "one that would hold an adjustment");
    assert_eq!(client.operate(set, &[TAKE.nowait()]), EAGAIN);
    assert_eq!(client.call(&operate(set, 0, &[TAKE])).code, EAGAIN, "no wait at all");
    assert_eq!(client.operate(set + 4, &[TAKE]), EINVAL);
    assert_eq!(client.operate(set, &[]), EINVAL);
    assert!(!sleepers.iter().any(Client::is_answered));
    assert_eq!(client.value(set, 0), 0, "nothing has happened");

    let both = [Operation::new(1, 3).undo(), Operation::new(1, -3).undo()];
    assert_eq!(client.operate(set, &both), 0, "its adjustments are 0 again");
    assert_eq!(client.operate(set, &[Operation::new(0, 7)]), 0);
    sleepers.iter().for_each(|sleeper| assert_eq!(sleeper.answer().code, 0));
    assert_eq!(client.value(set, 0), 0, "each has taken one");
    // What is ENOSPC is no event; the create, seven operates, six calls and two readings are. The
    // call with a wait has told the time.
    let events = daemon.replay(&folder);
    assert!((16..=17).contains(&events), "{events}");
}

#[test]
fn numbers_come_free_again() {
    let folder = Folder::new();
    let daemon = Daemon::start(&folder);
    let client = Client::new(&folder);
    let set = client.make(1);
    for _ in 0..3 {
        let sleepers = seven_asleep(&folder, &client, set);
        assert_eq!(client.operate(set, &[GIVE.undo()]), ENOSPC);
        sleepers[3].cancel();
        assert_eq!(sleepers[3].answer().code, EINTR);
        // One number is free: it is taken by an adjustment, and free when that is 0.
        assert_eq!(client.operate(set, &[GIVE.undo(), GIVE]), 0);
        assert_eq!([&sleepers[0], &sleepers[1]].map(|woken| woken.answer().code), [0, 0]);
        assert_eq!(client.operate(set, &[GIVE, TAKE.undo()]), 0);
        client.see_asleep(4);
        drop(sleepers);
        client.see_asleep(0);
    }
    assert!(daemon.replay(&folder) > 30);
}

/// What two threads have taken and given comes to nothing once they are awake: then their process
/// needs no number, and seven others can sleep.
#[test]
fn an_account_of_nothing_keeps_no_number() {
    let folder = Folder::new();
    let daemon = Daemon::start(&folder);
    let [client, sleeper] = [(); 2].map(|()| Client::new(&folder));
    let set = client.make(3);
    let takes = [Operation::new(1, -1), Operation::new(0, -2).undo()];
    sleeper.send(&operate(set, FOREVER, &takes)).expect("sent");
    client.see_asleep(1);
    assert_eq!(client.operate(set, &[Operation::new(0, 2).undo()]), 0);
    assert_eq!(client.operate(set, &[Operation::new(1, 1)]), 0);
    assert_eq!(sleeper.answer().code, 0);
    let others = vec![operate(set, FOREVER, &[Operation::new(2, -1)]); 7];
    let _process = Process::with(folder.socket(), others);
    client.see_asleep(7);
    assert!(daemon.replay(&folder) >= 11);
}

/// A setting or a removal forgets adjustments, and with them who held them.
#[test]
fn what_is_forgotten_keeps_no_number() {
    for (command, data) in [(SET_VALUE, &[3, 0, 0, 0][..]), (SET_ALL, &[3, 0]), (REMOVE, &[])] {
        let folder = Folder::new();
        let daemon = Daemon::start(&folder);
        let client = Client::new(&folder);
        let [set, other] = [1, 1].map(|count| client.make(count));
        assert_eq!(client.operate(set, &[Operation::new(0, 2).undo()]), 0);
        assert_eq!(client.control(set, 0, command, data).code, 0);
        let others = vec![operate(other, FOREVER, &[TAKE]); 7];
        let _process = Process::with(folder.socket(), others);
        client.see_asleep(7);
        assert!(daemon.replay(&folder) >= 11);
    }
}
