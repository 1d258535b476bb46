//! A daemon that has nothing to do does nothing, and it stays small.

use std::thread;
use std::time::Duration;

use vairolent::Operation;

use crate::client::{operate, Client, FOREVER};
use crate::daemon::Daemon;
use crate::folder::Folder;

#[test]
fn it_rests_while_a_call_sleeps() {
    let folder = Folder::new();
    let daemon = Daemon::start(&folder);
    let (client, sleeper) = (Client::new(&folder), Client::new(&folder));
    let set = client.make(1);
    sleeper.begin(set, FOREVER, Operation::new(0, -1));
    client.see_asleep(1);
    daemon.rest();
    let before = daemon.work();
    thread::sleep(Duration::from_millis(300));
    assert_eq!(daemon.work(), before, "ticks and voluntary switches");
    assert_eq!(client.operate(set, &[Operation::new(0, 1)]), 0);
    assert_eq!(sleeper.answer().code, 0);
    daemon.rest();
    assert!(daemon.work().1 > before.1, "work is seen");
    assert_eq!(daemon.replay(&folder), 3);
}

#[test]
fn it_stays_small() {
    let folder = Folder::new();
    let daemon = Daemon::start(&folder);
    let client = Client::new(&folder);
    let set = client.make(1);
    let both = operate(set, FOREVER, &[Operation::new(0, 1), Operation::new(0, -1)]);
    client.repeat(20_000, &both, 0);
    let kilobytes = daemon.number("VmRSS");
    assert!(kilobytes < 8_192, "{kilobytes} KB");
    assert!(daemon.replay(&folder) > 20_000);
}
