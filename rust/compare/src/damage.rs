//! Damaged files: every way to earn a bad code, the edges beside them, and random edits.

use second::event::{self, Body};
use second::{run_file, ENTRY, FILE_MAX, HEAD};

use crate::events::{callerless, unknown, EVENTS};
use crate::kind::Kind;
use crate::kind::Make::Bytes;
use crate::medley;
use crate::random::Rng;
use crate::scene::Scene;

pub static DAMAGED: [Kind; 5] = [
    Kind::new("cut", Bytes(cut), "head or table cut off, too long, largest (201)"),
    Kind::new("offsets", Bytes(offsets), "offsets or end not as said (202)"),
    Kind::new("kinds", Bytes(kinds), "unknown kinds (203)"),
    Kind::new("lengths", Bytes(lengths), "bodies empty or of wrong length (204)"),
    Kind::new("edited", Bytes(edited), "good files after random edits"),
];

type Way = fn(&mut Rng, Vec<Body>) -> Vec<u8>;

/// Files that are too long, or cut off in head or table, and the largest good ones: 201.
fn cut(rng: Rng, limit: usize) -> Vec<u8> {
    damaged(rng, limit, &[cut_head, cut_table, table_beyond_the_file, too_long, too_long, largest])
}

/// Files whose offsets or end are not as said, and heads alone: 202.
fn offsets(rng: Rng, limit: usize) -> Vec<u8> {
    damaged(rng, limit, &[offset_off, length_off, end_before, end_behind, no_events])
}

/// Files with a body of unknown kind: 203.
fn kinds(rng: Rng, limit: usize) -> Vec<u8> {
    damaged(rng, limit, &[unknown_kind, unknown_kind, two_bad_bodies])
}

/// Files with a body that is empty, or of the wrong length for its kind and number: 204.
fn lengths(rng: Rng, limit: usize) -> Vec<u8> {
    let ways: [Way; 6] =
        [empty_body, wrong_length, wrong_length, wrong_number, without_caller, two_bad_bodies];
    damaged(rng, limit, &ways)
}

fn damaged(mut rng: Rng, limit: usize, ways: &[Way]) -> Vec<u8> {
    let bodies = good_bodies(&mut rng, limit);
    rng.pick(ways)(&mut rng, bodies)
}

/// A good file after some random edits.
fn edited(mut rng: Rng, limit: usize) -> Vec<u8> {
    let bodies = good_bodies(&mut rng, limit);
    let mut file = run_file(&bodies);
    // Behind the table an edit leaves most files good, and runs other events.
    let first = if rng.once_in(2) { 0 } else { HEAD + ENTRY * bodies.len() };
    for _ in 0..rng.pick(&[1, 1, 2, 4, 16]) {
        if file.len() == first {
            break;
        }
        let place = first + rng.below(file.len() - first);
        match rng.below(if first == 0 { 7 } else { 4 }) {
            0 => file[place] ^= 1 << rng.below(8),
            1 => file[place] = rng.byte(),
            2 => file[place] = rng.pick(&[0, 1, 0x7F, 0x80, 0xFF]),
            3 => file[place] = file[place].wrapping_add(rng.pick(&[1, 255])),
            4 => file.truncate(place + 1),
            5 => file.insert(place, rng.byte()),
            _ => drop(file.remove(place)),
        }
    }
    file
}

/// At least one event of mixed traffic.
fn good_bodies(rng: &mut Rng, limit: usize) -> Vec<Body> {
    let mut bodies = Scene::played(medley::play, Rng::new(rng.next(), 0), limit);
    if bodies.is_empty() {
        bodies.push(event::exit(1));
    }
    bodies
}

fn cut_head(rng: &mut Rng, bodies: Vec<Body>) -> Vec<u8> {
    run_file(&bodies)[..rng.below(HEAD)].to_vec()
}

fn cut_table(rng: &mut Rng, bodies: Vec<Body>) -> Vec<u8> {
    let length = HEAD + rng.below(ENTRY * bodies.len());
    run_file(&bodies)[..length].to_vec()
}

/// The head promises as many events as the file has room for, one more, or far more.
fn table_beyond_the_file(rng: &mut Rng, bodies: Vec<Body>) -> Vec<u8> {
    let mut file = run_file(&bodies);
    let room = (file.len() - HEAD) / ENTRY;
    let events = rng.pick(&[room, room + 1, 65_535]) as u16;
    file[..HEAD].copy_from_slice(&events.to_le_bytes());
    file
}

/// A file that is good but for its size, if that: exactly so many bytes.
fn of_size(rng: &mut Rng, size: usize) -> Vec<u8> {
    let mut bodies = good_bodies(rng, size - 64);
    let mut present = run_file(&bodies).len();
    while present < size {
        // With an entry each these have 6, 9, 10 and 11 bytes: any sum from 15 on can be reached.
        let mut choices = vec![event::exit(1), event::create(1, 1, 1), event::remove(1, 0)];
        choices.push(event::operate(1, 0, &[]));
        let rest = size - present;
        choices.retain(|body| {
            let left = rest.checked_sub(ENTRY + body.len());
            left.map_or(false, |left| ![1, 2, 3, 4, 5, 7, 8, 13, 14].contains(&left))
        });
        if choices.is_empty() {
            break;
        }
        let body = choices.swap_remove(rng.below(choices.len()));
        present += ENTRY + body.len();
        bodies.push(body);
    }
    run_file(&bodies)
}

/// One byte too many in a file that is good else, or much too long.
fn too_long(rng: &mut Rng, bodies: Vec<Body>) -> Vec<u8> {
    match rng.below(3) {
        0 => of_size(rng, FILE_MAX + 1),
        1 => vec![0; FILE_MAX + 1 + rng.below(100_000)],
        _ => {
            let mut file = run_file(&bodies);
            file.resize(FILE_MAX + 1 + rng.below(2), 0);
            file
        }
    }
}

/// The largest good file there is.
fn largest(rng: &mut Rng, _: Vec<Body>) -> Vec<u8> {
    of_size(rng, FILE_MAX)
}

/// Adds to one of the two numbers of a random entry.
fn entry_off(rng: &mut Rng, bodies: &[Body], field: usize) -> Vec<u8> {
    let mut file = run_file(bodies);
    let place = HEAD + ENTRY * rng.below(bodies.len()) + field;
    let number = u16::from_le_bytes([file[place], file[place + 1]]);
    let step = rng.pick(&[1, 1, u16::MAX, u16::MAX, 256, 4]);
    file[place..place + 2].copy_from_slice(&number.wrapping_add(step).to_le_bytes());
    file
}

fn offset_off(rng: &mut Rng, bodies: Vec<Body>) -> Vec<u8> {
    entry_off(rng, &bodies, 0)
}

fn length_off(rng: &mut Rng, bodies: Vec<Body>) -> Vec<u8> {
    entry_off(rng, &bodies, 2)
}

/// The file ends before its last body does.
fn end_before(rng: &mut Rng, bodies: Vec<Body>) -> Vec<u8> {
    let mut file = run_file(&bodies);
    let last = bodies.last().map_or(0, Vec::len);
    file.truncate(file.len() - 1 - rng.below(last));
    file
}

fn end_behind(rng: &mut Rng, bodies: Vec<Body>) -> Vec<u8> {
    let mut file = run_file(&bodies);
    let more = rng.pick(&[1, 1, 2, 4, 100]);
    file.resize(file.len() + more, rng.byte());
    file
}

/// Puts the body somewhere among the others.
fn with_body(rng: &mut Rng, mut bodies: Vec<Body>, body: Body) -> Vec<u8> {
    bodies.insert(rng.below(bodies.len() + 1), body);
    run_file(&bodies)
}

/// A good body of any kind, each as often.
fn body_of_any_kind(rng: &mut Rng) -> Body {
    (rng.pick(&EVENTS).small)(rng)
}

fn of_unknown_kind(rng: &mut Rng) -> Body {
    let mut body = body_of_any_kind(rng);
    let unknown = unknown();
    // More often one of the lowest, which stand beside the known ones.
    let some = if rng.once_in(3) { &unknown[..4] } else { &unknown };
    body[0] = rng.pick(some);
    body
}

fn of_wrong_length(rng: &mut Rng) -> Body {
    let mut body = body_of_any_kind(rng);
    let length = match rng.below(4) {
        0 => body.len() + 1,
        1 => body.len() - 1,
        2 => rng.below(body.len()),
        _ => body.len() + rng.between(1, 12) as usize,
    };
    body.resize(length, 0);
    body
}

fn unknown_kind(rng: &mut Rng, bodies: Vec<Body>) -> Vec<u8> {
    let body = of_unknown_kind(rng);
    with_body(rng, bodies, body)
}

fn empty_body(rng: &mut Rng, bodies: Vec<Body>) -> Vec<u8> {
    with_body(rng, bodies, Body::new())
}

fn wrong_length(rng: &mut Rng, bodies: Vec<Body>) -> Vec<u8> {
    let body = of_wrong_length(rng);
    with_body(rng, bodies, body)
}

/// An operate with another number of operations than it has, with a wait or without, or a setting
/// with another of values.
fn wrong_number(rng: &mut Rng, bodies: Vec<Body>) -> Vec<u8> {
    let number = rng.below(10);
    let (mut body, place) = match rng.below(3) {
        0 => (event::operate(1, 0, &vec![(0, 1, 0); number]), 6),
        1 => (event::timed_operate(1, 0, 1, &vec![(0, 1, 0); number]), 10),
        _ => (event::set_all(1, 0, &vec![1; number]), 6),
    };
    body[place] = body[place].wrapping_add(rng.pick(&[1, 2, 43, 64, 128, 255]));
    with_body(rng, bodies, body)
}

fn without_caller(rng: &mut Rng, bodies: Vec<Body>) -> Vec<u8> {
    let body = callerless(body_of_any_kind(rng));
    with_body(rng, bodies, body)
}

/// The first of two bad bodies decides, and a bad end before both.
fn two_bad_bodies(rng: &mut Rng, mut bodies: Vec<Body>) -> Vec<u8> {
    let place = rng.below(bodies.len() + 1);
    bodies.insert(place, of_unknown_kind(rng));
    let body = if rng.once_in(2) { Body::new() } else { of_wrong_length(rng) };
    let mut file = with_body(rng, bodies, body);
    if rng.once_in(4) {
        file.push(0);
    }
    file
}

/// A head alone, perhaps with something behind it.
fn no_events(rng: &mut Rng, _: Vec<Body>) -> Vec<u8> {
    vec![0; rng.pick(&[2, 2, 3, 6])]
}
