//! System V semaphore sets, by a service whose every answer is proved.
//!
//! A [`Host`] holds up to four sets of up to eight semaphores, for eight processes. It decides who
//! sleeps, who wakes, with which code and in which order. It is a library and not a kernel: no event
//! waits, and a program acts on what its host tells. A process that is asleep goes on when the wakings
//! of a later event list it.
//!
//! Two predictors write to one table. A semaphore says whether it is free:
//!
//! ```
//! use vairolent::{Answer, Host, Operation};
//!
//! let take = [Operation::new(0, -1).undo()];
//! let mut host = Host::new();
//! // Predictor 1 makes a set of one semaphore, for all to read and alter. At 1 it says that the
//! // table is free.
//! let table = host.create(1, 1, 0o666)?;
//! let _ = host.set_value(1, table, 0, 1)?;
//! // Predictor 1 takes the table; predictor 2 has to sleep until it is free.
//! assert!(matches!(host.operate(1, table, &take)?, Answer::Done(_)));
//! assert_eq!(host.operate(2, table, &take)?, Answer::Asleep { position: 0 });
//! // Predictor 1 fails, and its undo gives the table to predictor 2.
//! let woken: Vec<String> = host.exit(1)?.map(|waking| waking.to_string()).collect();
//! assert_eq!(woken, ["process 2: done (0)"]);
//! # Ok::<(), vairolent::Error>(())
//! ```
//!
//! # Which operation decided
//!
//! Operations are judged in order, and the first that cannot go on decides. Then the answer names it
//! by its position, from 0: in [`Answer::Asleep`], in [`Error::WouldSleep`] and
//! [`Error::OutOfRange`], and where a sleeper is judged again in [`Ending::WouldSleep`] and
//! [`Ending::OutOfRange`]. Nothing else has a position: operations that are done, calls that a check
//! refuses before they are judged, sleepers that a signal, a removal or the clock ends, and the other
//! events.
//!
//! ```
//! use vairolent::{Error, Host, Operation};
//!
//! let mut host = Host::new();
//! let set = host.create(1, 3, 0o666)?;
//! let operations = [2, 0, 1].map(|number| Operation::new(number, -1).nowait());
//! let _ = host.set_value(1, set, 2, 1)?;
//! match host.operate(1, set, &operations) {
//!     Err(Error::WouldSleep { position }) => assert_eq!(operations[position].number, 0),
//!     other => panic!("semaphore 0 is at 0: {other:?}"),
//! }
//! # Ok::<(), vairolent::Error>(())
//! ```
//!
//! # Waits that end by the clock
//!
//! [`Host::operate_within`] is an operate with a wait, in milliseconds. A host has no clock of its
//! own: [`Host::clock`] tells it the present time, and ends the sleepers whose wait is over. So a
//! program tells the time as often as it wants to know who gives up, and before the events of a new
//! moment.
//!
//! ```
//! use vairolent::{Answer, Ending, Host, Operation, Waking};
//!
//! let mut host = Host::new();
//! let table = host.create(1, 1, 0o666)?;
//! // Who has the table is dead, and nobody knows. Predictor 2 waits for three seconds.
//! let take = [Operation::new(0, -1)];
//! assert_eq!(host.operate_within(2, table, &take, 3_000)?, Answer::Asleep { position: 0 });
//! for now in [1_000, 2_000] {
//!     assert_eq!(host.clock(now)?.len(), 0);
//! }
//! let gave_up: Vec<Waking> = host.clock(3_000)?.collect();
//! assert_eq!(gave_up, [Waking { process: 2, ending: Ending::TimedOut }]);
//! # Ok::<(), vairolent::Error>(())
//! ```
//!
//! # All values at once
//!
//! [`Host::set_all`] sets every semaphore of a set, and wakes sleepers only then, so that nobody is
//! judged on some new values and some old ones. [`Host::query_set`] reads every value, and shows with
//! it who waits there.
//!
//! ```
//! use vairolent::Host;
//!
//! let mut host = Host::new();
//! let set = host.create(1, 3, 0o666)?;
//! let _ = host.set_all(1, set, &[4, 0, 1])?; // nobody sleeps yet
//! let seen = host.query_set(1, set)?;
//! let values: Vec<u16> = seen.semaphores().iter().map(|semaphore| semaphore.value).collect();
//! assert_eq!(values, [4, 0, 1]);
//! # Ok::<(), vairolent::Error>(())
//! ```
//!
//! # Owners and modes
//!
//! A set belongs to the user and the group of the process that makes it, and its mode says what its
//! owner, its group and all others may do, as that of a file does. A host does not know who its
//! processes are: [`Host::act_as`] tells it. Who is not told of is user 0, who may do everything.
//!
//! ```
//! use vairolent::{Error, Host};
//!
//! let mut host = Host::new();
//! // User 1000 and user 2000, both of group 100.
//! host.act_as(1, 1_000, 100)?;
//! host.act_as(2, 2_000, 100)?;
//! let set = host.create(1, 1, 0o640)?;
//! // Its group may read it, and not alter it.
//! assert_eq!(host.query(2, set, 0)?.value, 0);
//! assert_eq!(host.set_value(2, set, 0, 1), Err(Error::NotPermitted));
//! # Ok::<(), vairolent::Error>(())
//! ```
//!
//! # What is proved
//!
//! The events are functions of libvairolent.a, which tools/build-library makes from
//! `crates/vairolent`. Each is proved to do what the rules say, for every host that is fresh or as
//! the last event left it, and for all arguments: what it answers, which operation decided, whom it
//! wakes, and every byte of the host after it. A refused event changes nothing. A whole set is shown
//! as its queries would show it. `docs/RULES.md` leads from each rule to its definition.
//!
//! This package is ordinary Rust, and not proved. It keeps a host's bytes private, so that they are
//! always as the last event left them, lends them to the archive by the C convention, and turns
//! codes and bytes into [`Error`], [`Answer`], [`Wakings`], [`Semaphore`] and [`Set`]. All of that is
//! tested.

#![deny(missing_docs)]

#[cfg(not(all(target_arch = "x86_64", target_os = "linux", target_pointer_width = "64")))]
compile_error!("vairolent: libvairolent.a is for x86-64 Linux alone");

mod answers;
mod archive;
mod codes;
mod error;
mod event;
mod host;
mod limits;
mod operation;
mod set;
mod wakings;

pub use answers::{Answer, Semaphore};
pub use error::Error;
pub use event::{Event, Told};
pub use host::Host;
pub use limits::{MODE_MAX, OPERATIONS, PROCESSES, SEMAPHORES, SETS, TIME_MAX, VALUE_MAX};
pub use operation::Operation;
pub use set::Set;
pub use wakings::{Ending, Waking, Wakings};
