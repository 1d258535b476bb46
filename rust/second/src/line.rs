//! The lines that the program writes.

use crate::answer::{Answer, State};
use crate::bad::Bad;
use crate::position::Position;

/// The only line for a refused file.
pub fn push_bad(text: &mut Vec<u8>, bad: Bad) {
    text.extend_from_slice(b"bad ");
    push_number(text, bad as i32);
    text.push(b'\n');
}

/// The first line for a good file.
pub fn push_events(text: &mut Vec<u8>, events: usize) {
    text.extend_from_slice(b"events ");
    push_number(text, events as i32);
    text.push(b'\n');
}

/// The line of one event.
pub fn push_answer(text: &mut Vec<u8>, position: usize, answer: &Answer) {
    push_number(text, position as i32);
    match answer {
        Answer::Event(report) => {
            push_field(text, report.code);
            push_position(text, report.position);
            push_field(text, report.value);
            push_field(text, report.looks as i32);
            for waking in report.wakings.as_slice() {
                push_field(text, waking.process.into());
                text.push(b'=');
                push_number(text, waking.code.into());
                push_position(text, waking.position);
            }
        }
        Answer::Query(state) => {
            push_field(text, state.code);
            push_field(text, state.value);
            push_field(text, state.last.into());
            push_counts(text, state);
        }
        Answer::Reading(reading) => {
            push_field(text, reading.code);
            for shown in reading.states() {
                push_field(text, shown.value);
                push_counts(text, &shown);
            }
        }
    }
    text.push(b'\n');
}

/// How many wait for increase, and for zero.
fn push_counts(text: &mut Vec<u8>, state: &State) {
    push_field(text, state.for_increase.count_ones() as i32);
    push_field(text, state.for_zero.count_ones() as i32);
}

fn push_field(text: &mut Vec<u8>, number: i32) {
    text.push(b' ');
    push_number(text, number);
}

/// Behind a code: the position of the operation that decided, where one did.
fn push_position(text: &mut Vec<u8>, position: Option<Position>) {
    if let Some(position) = position {
        text.push(b'@');
        push_number(text, position.index() as i32);
    }
}

/// Writes the number in decimal; most are a single digit.
fn push_number(text: &mut Vec<u8>, number: i32) {
    if number < 0 {
        text.push(b'-');
    }
    let mut rest = number.unsigned_abs();
    if rest < 10 {
        text.push(b'0' + rest as u8);
        return;
    }
    let mut digits = [0; 10];
    let mut first = digits.len();
    while rest > 0 {
        first -= 1;
        digits[first] = b'0' + (rest % 10) as u8;
        rest /= 10;
    }
    text.extend_from_slice(&digits[first..]);
}
