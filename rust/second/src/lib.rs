//! The second program: System V semaphore sets, replayed from a run file.
//!
//! Written from the rules alone, so that the proved programs can be compared with something that
//! shares no line with them. It replays by the quick rule or by the plain rule.

#![forbid(unsafe_code)]

mod answer;
mod bad;
mod clock;
mod errno;
pub mod event;
mod handle;
mod host;
mod judge;
mod line;
mod permission;
mod position;
mod process;
mod queue;
mod runfile;
mod set;
mod waking;

pub use answer::{Answer, Reading, Report, State, Waking, Wakings};
pub use bad::Bad;
pub use clock::TIME_MAX;
pub use errno::Errno;
pub use event::Event;
pub use host::{Host, Rule};
pub use judge::{IPC_NOWAIT as NOWAIT, OPERATIONS, SEM_UNDO as UNDO};
pub use permission::{Credentials, MODE_MAX};
pub use position::Position;
pub use runfile::{run_file, RunFile, ENTRY, FILE_MAX, HEAD};
pub use set::Set;

/// The whole text that the program writes for `file`.
pub fn replay(file: &[u8], rule: Rule) -> Vec<u8> {
    // A typical line is shorter than its event, table entry included.
    let mut text = Vec::with_capacity(2 * file.len().min(FILE_MAX) + 32);
    match RunFile::read(file) {
        Err(bad) => line::push_bad(&mut text, bad),
        Ok(run) => {
            line::push_events(&mut text, run.len());
            let mut host = Host::new(rule);
            for (position, event) in run.events().enumerate() {
                line::push_answer(&mut text, position, &host.handle(&event));
            }
        }
    }
    text
}
