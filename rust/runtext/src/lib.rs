//! Run files as text, and replays as stories, for people.
//!
//! A text has one event a line (the grammar stands in `parse`); text and run file turn into each
//! other exactly. A story shows a replay event by event: who asked what, what the program answered,
//! at which operation a call stopped or by which bits it was denied and why, who woke or gave up
//! waiting, and the values after it.
//!
//! Data goes one way: text or bytes to events (`parse`, `runfile`), events to bytes or text
//! (`runfile`, `print`). A story hands bytes to the program, reads its lines (`answer`), and puts
//! readings behind the events (`questions`) to learn the values. What the kinds of events are
//! stands in `event`; texts, bodies and the help go by that. What a story shows is what the program
//! wrote.
//! Three rules of the service are in here. To say at which value an operation decided (`decided`,
//! `sleepers`): an array is judged in order, and one that is applied adds its amounts. To say after
//! how long a sleeper gave up (`clock`, `sleepers`): its wait begins at the time told last. To say
//! why a caller was denied (`owners`): one class of the mode decides, by the caller's numbers and
//! those that the set's creator had.

#![forbid(unsafe_code)]

mod answer;
mod body;
mod clock;
mod codes;
mod count;
mod decided;
pub mod event;
mod field;
pub mod help;
mod known;
mod mistake;
mod mode;
mod operation;
mod owners;
pub mod parse;
pub mod print;
pub mod program;
mod questions;
mod refusal;
mod rows;
pub mod runfile;
mod scan;
mod scene;
mod sleepers;
pub mod story;
mod values;
mod words;

pub use field::Field;
pub use mistake::Mistake;
pub use operation::Operation;
pub use refusal::Refusal;
