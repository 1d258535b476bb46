//! From events to the one text that is theirs.

use crate::event::Event;
use crate::field::Field;
use crate::mode;
use crate::values;

/// A line for each event; `parse::events` reads the same events from it.
pub fn text(events: &[Event]) -> String {
    events.iter().map(|event| line(event) + "\n").collect()
}

fn line(event: &Event) -> String {
    let mut line = event.kind().word.to_string();
    for (name, field) in event.clone().in_text() {
        for word in words(field) {
            line += &format!(" {name}{word}");
        }
    }
    line
}

/// One word for each field, but none for a wait that isn't there, and as many as there are
/// operations.
fn words(field: Field) -> Vec<String> {
    match field {
        Field::Count(value) | Field::Process(value) => vec![value.to_string()],
        Field::Number(value) => vec![value.to_string()],
        Field::Identifier(value) | Field::Value(value) => vec![value.to_string()],
        Field::Values(values) => vec![values::name(values)],
        Field::Mode(mode) => vec![mode::name(*mode)],
        Field::User(value) | Field::Group(value) => vec![value.to_string()],
        Field::Wait(wait) => wait.iter().map(ToString::to_string).collect(),
        Field::Time(time) => vec![time.to_string()],
        Field::Operations(operations) => operations.iter().map(ToString::to_string).collect(),
    }
}
