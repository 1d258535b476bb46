//! The daemon as a program: each test starts one with a folder of its own, talks to it by packets,
//! and replays what it has recorded.

mod attack;
mod client;
mod daemon;
mod exits;
mod folder;
mod full;
mod idle;
mod numbers;
mod process;
mod random;
mod recording;
mod runs;
mod socket;
mod status;
mod times;

/// The events of a run file, as the service takes them.
#[path = "../../../vairolent/examples/through/mod.rs"]
mod through;
