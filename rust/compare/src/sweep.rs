//! Files that every seed has. Small ones in full: who may do what, the most looks, a wait of 0 at
//! every operation, waits that end at the edges of time, every cut of the whole example, every
//! changed bit of its table, every unknown kind, and every length of each kind, with its caller and
//! without. And a few largest ones: long arrays, any operation that decides, whole sets, waits, and
//! owners and modes.

use second::event::{
    clock, create, exit, operate, read_all, set_all, set_value, timed_operate, Body,
};
use second::{run_file, FILE_MAX, OPERATIONS, TIME_MAX, UNDO};

use crate::clock::timed;
use crate::deciding::deciding;
use crate::events::{callerless, unknown, EVENTS};
use crate::long::long;
use crate::modes::modes;
use crate::random::Rng;
use crate::rights;
use crate::scene::{Scene, OPEN};
use crate::script::same_value;
use crate::values::whole;

/// The whole example of 45 bytes: create, an operate that sleeps, one that wakes it.
const EXAMPLE: [u8; 45] = [
    0x03, 0x00, 0x0E, 0x00, 0x05, 0x00, 0x13, 0x00, 0x0D, 0x00, 0x20, 0x00, 0x0D, 0x00, 0x01, 0x01,
    0x01, 0xB6, 0x01, 0x02, 0x01, 0x00, 0x00, 0x00, 0x00, 0x01, 0x00, 0x00, 0xFF, 0xFF, 0x00, 0x00,
    0x02, 0x02, 0x00, 0x00, 0x00, 0x00, 0x01, 0x00, 0x00, 0x01, 0x00, 0x00, 0x00,
];
/// Bytes of its head and table.
const TABLE: usize = 14;

pub fn files() -> Vec<Vec<u8>> {
    let mut files = vec![EXAMPLE.to_vec()];
    let small = [rights::classes(), rights::alike(), rights::mistakes(), chains(), no_time()];
    files.extend(small.map(|bodies| run_file(&bodies)));
    files.extend(waits());
    files.extend([2, 65_535, 65_536].map(|length| vec![0; length]));
    files.extend((0..EXAMPLE.len()).map(|length| EXAMPLE[..length].to_vec()));
    files.extend([1, 2, 100].map(|more| [&EXAMPLE[..], &vec![0; more]].concat()));
    files.extend(changed_tables());
    files.extend(sums_that_go_round());
    files.extend(kinds_and_lengths().into_iter().map(|body| run_file(&[body])));
    files.extend(largest());
    files
}

/// Each byte of head and table with one bit changed, one more, and one less.
fn changed_tables() -> Vec<Vec<u8>> {
    let mut files = Vec::new();
    for place in 0..TABLE {
        let byte = EXAMPLE[place];
        let bits = (0..8).map(|bit| byte ^ 1 << bit);
        for changed in bits.chain([byte.wrapping_add(1), byte.wrapping_sub(1)]) {
            let mut file = EXAMPLE.to_vec();
            file[place] = changed;
            files.push(file);
        }
    }
    files
}

/// Two events whose offsets and lengths fit only where sums are taken modulo 65,536.
fn sums_that_go_round() -> Vec<Vec<u8>> {
    let file = |back: u16| {
        let (first, second) = (u16::MAX - back, 9 - back);
        let numbers = [2, 10, first, second, 12 - second];
        let mut file: Vec<u8> = numbers.iter().flat_map(|number| number.to_le_bytes()).collect();
        file.extend([6, 1]);
        file
    };
    (0..10).map(file).collect()
}

fn kinds_and_lengths() -> Vec<Body> {
    let mut bodies = vec![Body::new()];
    bodies.extend(EVENTS.map(|kind| callerless((kind.small)(&mut Rng::new(0, 0)))));
    for length in 1..20 {
        for kind in EVENTS {
            let mut body = vec![0; length];
            body[0] = kind.number;
            bodies.push(body);
        }
    }
    for number in (0..11).chain([31, 32, 33, 34, 254, 255]) {
        bodies.extend(numbered(number, 6, |present| operate(1, 0, &vec![(0, 1, 0); present])));
    }
    for number in (0..11).chain([32, 33, 254, 255]) {
        bodies.extend(numbered(number, 10, timed_of));
    }
    for number in (0..11).chain([64, 254, 255]) {
        bodies.extend(numbered(number, 6, |present| set_all(1, 0, &vec![1; present])));
        bodies.push(callerless(set_all(1, 0, &vec![1; number.into()])));
    }
    bodies.extend(unknown().into_iter().map(|kind| vec![kind, 1]));
    bodies
}

fn timed_of(present: usize) -> Body {
    timed_operate(1, 0, 1, &vec![(0, 1, 0); present])
}

/// Bodies that say at a place how many operations or values they have, and have so many or not.
fn numbered(number: u8, place: usize, body: fn(usize) -> Body) -> impl Iterator<Item = Body> {
    let said = usize::from(number);
    let present = [said, 0, said + 1, said.saturating_sub(1), 256].into_iter();
    present.map(body).map(move |mut body| {
        body[place] = number;
        body
    })
}

/// Waits from starts at the edges of time on: a sleeper with each, one without, and the times just
/// before its end, at it and behind it.
fn waits() -> Vec<Vec<u8>> {
    let longest = u64::from(u32::MAX);
    let starts = [0, 1, longest, longest + 1, TIME_MAX - longest, TIME_MAX - 1, TIME_MAX];
    let take = [(0, -1, 0)];
    let file = |start: u64, wait: u32| {
        let end = start + u64::from(wait);
        let asleep = [operate(2, 0, &take), timed_operate(1, 0, wait, &take)];
        let times = [clock(end.saturating_sub(1)), clock(end), clock(end + 1), read_all(3, 0)];
        run_file(&[&[create(3, 1, OPEN), clock(start)][..], &asleep, &times].concat())
    };
    let waits = [0, 1, 256, u32::MAX - 1, u32::MAX];
    starts.into_iter().flat_map(|start| waits.map(|wait| file(start, wait))).collect()
}

/// Every operation stops an array that has no time to sleep.
fn no_time() -> Vec<Body> {
    let stops_at = |position| {
        let array = [vec![(1, 1, 0); position], vec![(0, -1, 0)]].concat();
        timed_operate(1, 0, 0, &array)
    };
    [create(1, 2, OPEN)].into_iter().chain((0..OPERATIONS).map(stops_at)).collect()
}

/// Seven sleepers of which each frees the one before it, and every event that can wake the last. Who
/// exits sleeps too.
fn chains() -> Vec<Body> {
    let (free, back) = ((6, 1, 0), (6, -1, UNDO));
    let ends = [
        vec![operate(8, 0, &[free])],
        vec![timed_operate(8, 0, 1, &[free])],
        vec![set_value(8, 0, 6, 1)],
        vec![set_all(8, 0, &[0, 0, 0, 0, 0, 0, 1])],
        vec![operate(8, 0, &[free, back]), operate(8, 0, &[(6, -2, 0)]), exit(8)],
    ];
    let mut bodies = vec![create(8, 7, OPEN)];
    for end in ends {
        bodies.push(operate(1, 0, &[(0, -1, 0)]));
        let links =
            (1..7).map(|link| operate(link as u8 + 1, 0, &[(link, -1, 0), (link - 1, 1, 0)]));
        bodies.extend(links.chain(end));
    }
    bodies
}

/// Enough of them to show every decision and length that has to come, and all that has to come of
/// whole sets, of waits, and of who may do what.
fn largest() -> impl Iterator<Item = Vec<u8>> {
    let arrays = [long, deciding, deciding, deciding, deciding];
    let others = [whole, whole, same_value, timed, timed, modes, modes];
    let full = |(script, file)| run_file(&Scene::played(script, Rng::new(0, file), FILE_MAX));
    arrays.into_iter().chain(others).zip(0..).map(full)
}
