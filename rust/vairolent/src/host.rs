//! The host, and the eleven events on it.

use std::fmt;
use std::mem::size_of_val;

use crate::answers::{Answer, Semaphore};
use crate::archive::{self, Adjustments, List, Row, Told};
use crate::error::Error;
use crate::limits::{SEMAPHORES, SETS};
use crate::operation::Operation;
use crate::set::Set;
use crate::wakings::Wakings;

/// All that the service knows: the sets, the undo adjustments, the sleepers, the users and groups of
/// the processes, and the time last told. It is some two and a half thousand bytes in itself, with
/// nothing outside of it.
///
/// Only the events change a host, so it is always fresh or as the last event left it. That is the
/// one premise of what is proved about them, and it holds of a clone too.
///
/// # How sleepers are woken
///
/// After an operate that is done, a set value, a set all or an exit, those sleepers of the set are
/// judged again whose operations name a semaphore whose value changed or was set, oldest first. One
/// that no longer sleeps is woken: with its operations applied, and then it is the last process of
/// all that they name, or with an error of its own and the position of the operation that now
/// decided. Then those who name a semaphore whose value it changed are to be judged too, and it
/// begins again with the oldest, until nobody is left to be judged. Each such judging is a look. So
/// nobody sleeps on who could finish.
///
/// A removal, a signal and [the clock](Host::clock) end sleepers without judging them.
///
/// # What a process may do
///
/// Every event but a signal, an exit and the clock is the call of a process, which has to be awake.
/// A process has a user and a group, which [`Host::act_as`] tells; both are 0 at first. A set has an
/// owner and an owning group, which are those that its creator had then, and a mode of nine bits.
///
/// A process whose user is the owner goes by the first three bits of the mode; else one whose group
/// is the owning group by the next three; any other by the last three. No process goes by the bits
/// of a second class, even where they permit what its own deny. Of the three, 4 permits reading (an
/// operation with amount 0, a query, a whole set), 2 altering (any other operation, a set value, a
/// set all), and 1 is kept and permits nothing. A set is removed by its owner alone, whatever the
/// mode. User 0 may do everything; group 0 is a group as any other. So `0o640` lets the owner read
/// and alter, the group read, and others neither.
///
/// Permission is judged by the process's present numbers when a call begins, and not again at its
/// waking.
///
/// # Equality
///
/// Two hosts are equal exactly when they hold the same state. A host is nothing but how it holds
/// its state, part by part (`crates/host/specs/Holding.antt#Held`), and two rows of bytes that say
/// the same, part by part, are the same row (`crates/host/proofs/Whole.antt#whole`).
///
/// ```
/// use vairolent::Host;
///
/// let mut host = Host::new();
/// let set = host.create(1, 2, 0o666)?;
/// let before = host.clone();
/// let _ = host.set_value(1, set, 0, 5)?;
/// assert_ne!(host, before);
/// let _ = host.set_value(1, set, 0, 0)?;
/// assert_eq!(host, before);
/// # Ok::<(), vairolent::Error>(())
/// ```
#[derive(Clone, PartialEq, Eq)]
pub struct Host {
    row: Row,
    adjustments: Adjustments,
}

/// Lends the parts of a host to an event of the archive, with a list for its wakings.
macro_rules! lend {
    ($host:ident to $event:ident($($argument:ident),*)) => {{
        let Host { row, adjustments } = $host;
        let mut list = List::default();
        // SAFETY: The host is fresh or as the last event left it, since its parts are private and
        // written here alone. They and the list lie apart, as each is borrowed by itself. A pointer
        // and bytes, of operations or values, are those of a slice that the event's caller lends.
        // The archive writes numbers, for which any bytes will do.
        let told = unsafe { archive::$event(row, adjustments, &mut list, $($argument),*) };
        settled(told, list)
    }};
}

/// What an event told, and its wakings; or why it is refused.
fn settled(told: Told, list: List) -> Result<(Told, Wakings), Error> {
    Error::check(told.code, told.position.get())?;
    let wakings = Wakings::new(list, told.woken, told.looks);
    Ok((told, wakings))
}

impl Host {
    /// A fresh host: four free slots, every adjustment at zero, every process of user 0 and group 0,
    /// no sleepers, and time 0.
    ///
    /// # Panics
    ///
    /// If libvairolent.a was built for other limits than this package.
    ///
    /// ```
    /// use vairolent::{Error, Host};
    ///
    /// // There is no set yet.
    /// assert_eq!(Host::new().query(1, 0, 0), Err(Error::Invalid));
    /// ```
    pub fn new() -> Host {
        // SAFETY: It takes nothing, and has no premise.
        let limits = unsafe { archive::vairolent_limits() };
        assert_eq!(limits, archive::LIMITS, "libvairolent.a is of another build than this package");
        // SAFETY: As above, and the sizes of what it gives are the archive's.
        let fresh = unsafe { archive::vairolent_fresh() };
        Host { row: fresh.row, adjustments: fresh.adjustments }
    }

    /// Makes a set of `count` semaphores at 0 in the lowest free slot, and gives its identifier.
    ///
    /// Its owner and owning group are the process's user and group, and stay so; the mode says
    /// [who may do what](Host#what-a-process-may-do). The identifier is slot + 4 x generation; the
    /// slot's generation goes up by one at each removal, from 65,535 round to 0, so that a very old
    /// identifier can match again.
    ///
    /// # Errors
    ///
    /// In the order of the checks:
    ///
    /// - [`Error::NoProcess`]: the process is not 1 to 8.
    /// - [`Error::ProcessAsleep`]: the process is asleep.
    /// - [`Error::Invalid`]: the count is 0 or over 8, or the mode is over 0o777.
    /// - [`Error::NoSlot`]: no slot is free.
    ///
    /// ```
    /// use vairolent::{Error, Host};
    ///
    /// let mut host = Host::new();
    /// assert_eq!(host.create(1, 8, 0o640), Ok(0));
    /// assert_eq!(host.create(1, 3, 0o666), Ok(1));
    /// assert_eq!(host.create(1, 9, 0o666), Err(Error::Invalid));
    /// assert_eq!(host.create(1, 3, 0o1666), Err(Error::Invalid));
    /// ```
    pub fn create(&mut self, process: u8, count: u8, mode: u16) -> Result<i32, Error> {
        let (told, _) = lend!(self to vairolent_create_in(process, count, mode))?;
        // A slot and four times a generation, at most 262,143.
        Ok(told.value as i32)
    }

    /// Does operations on a set for a process, all at once or not at all.
    ///
    /// They are judged in order, on a copy of the set's values and of the process's adjustments;
    /// the first that stops, or would leave a range, decides, and its position in `operations` is
    /// told. If it stops, the process sleeps, and nothing else changes. If none does, the copy becomes
    /// the state, the process the last of every semaphore that they name, amounts of 0 included, and
    /// [sleepers are woken](Host).
    ///
    /// # Errors
    ///
    /// In the order of the checks:
    ///
    /// - [`Error::NoProcess`]: the process is not 1 to 8.
    /// - [`Error::ProcessAsleep`]: the process is asleep.
    /// - [`Error::Invalid`]: there are no operations.
    /// - [`Error::TooManyOperations`]: there are over 32 operations.
    /// - [`Error::Invalid`]: the identifier names no live set.
    /// - [`Error::NoSemaphore`]: a semaphore number is at or above the set's count.
    /// - [`Error::NotPermitted`]: an amount is not zero and altering is [not
    ///   permitted](Host#what-a-process-may-do), or one is zero and reading is not.
    ///
    /// Then by the judging, from the operation that decides, and with its position:
    ///
    /// - [`Error::WouldSleep`]: it stops, and has [`Operation::NOWAIT`].
    /// - [`Error::OutOfRange`]: the value would be over 32,767, or it has [`Operation::UNDO`] and
    ///   the adjustment would leave -32,767 to 32,767.
    ///
    /// ```
    /// use vairolent::{Answer, Ending, Host, Operation, Waking};
    ///
    /// let mut host = Host::new();
    /// let set = host.create(1, 2, 0o666)?;
    /// let _ = host.set_value(1, set, 0, 1)?;
    /// // Semaphore 0 has the 1 that is taken, but semaphore 1 has not.
    /// let take = [Operation::new(0, -1), Operation::new(1, -1)];
    /// assert_eq!(host.operate(1, set, &take)?, Answer::Asleep { position: 1 });
    /// match host.operate(2, set, &[Operation::new(1, 1)])? {
    ///     Answer::Done(mut wakings) => {
    ///         assert_eq!(wakings.next(), Some(Waking { process: 1, ending: Ending::Done }));
    ///     }
    ///     Answer::Asleep { .. } => unreachable!("adding never sleeps"),
    /// }
    /// # Ok::<(), vairolent::Error>(())
    /// ```
    pub fn operate(
        &mut self,
        process: u8,
        identifier: i32,
        operations: &[Operation],
    ) -> Result<Answer, Error> {
        self.call(process, identifier, operations, None)
    }

    /// Does operations as [`Host::operate`] does, but sleeps for a wait at most, in milliseconds.
    ///
    /// Where the process would sleep, its wait begins at the time last told, and no look begins it
    /// anew. It sleeps until it is woken, or until [`Host::clock`] tells a time at or above this start
    /// plus the wait. [`u32::MAX`] is a wait as any other.
    ///
    /// # Errors
    ///
    /// Those of [`Host::operate`], in the same order. Where the process would sleep and the wait is 0:
    ///
    /// - [`Error::WouldSleep`], with the position of the operation that stops.
    ///
    /// ```
    /// use vairolent::{Answer, Error, Host, Operation};
    ///
    /// let mut host = Host::new();
    /// let set = host.create(1, 1, 0o666)?;
    /// let take = [Operation::new(0, -1)];
    /// assert_eq!(host.operate_within(1, set, &take, 0), Err(Error::WouldSleep { position: 0 }));
    /// assert_eq!(host.operate_within(1, set, &take, 500)?, Answer::Asleep { position: 0 });
    /// assert_eq!(host.clock(499)?.len(), 0);
    /// assert_eq!(host.clock(500)?.len(), 1);
    /// # Ok::<(), vairolent::Error>(())
    /// ```
    pub fn operate_within(
        &mut self,
        process: u8,
        identifier: i32,
        operations: &[Operation],
        wait: u32,
    ) -> Result<Answer, Error> {
        self.call(process, identifier, operations, Some(wait))
    }

    fn call(
        &mut self,
        process: u8,
        identifier: i32,
        operations: &[Operation],
        wait: Option<u32>,
    ) -> Result<Answer, Error> {
        let bytes = size_of_val(operations);
        let operations = operations.as_ptr().cast();
        let (waits, wait) = (wait.is_some(), wait.unwrap_or(0));
        let (told, wakings) = lend!(
            self to vairolent_operate_in(process, identifier, waits, wait, operations, bytes)
        )?;
        Ok(match told.position.get() {
            Some(position) => Answer::Asleep { position },
            None => Answer::Done(wakings),
        })
    }

    /// Sets a semaphore to a value, and clears its adjustments for all processes.
    ///
    /// Then [sleepers are woken](Host), even if the value is the same as before. The last process
    /// stays.
    ///
    /// # Errors
    ///
    /// In the order of the checks:
    ///
    /// - [`Error::NoProcess`]: the process is not 1 to 8.
    /// - [`Error::ProcessAsleep`]: the process is asleep.
    /// - [`Error::Invalid`]: the identifier names no live set.
    /// - [`Error::NotPermitted`]: altering is [not permitted](Host#what-a-process-may-do).
    /// - [`Error::Invalid`]: the number is at or above the set's count.
    /// - [`Error::BadValue`]: the value is not 0 to 32,767.
    ///
    /// ```
    /// use vairolent::{Answer, Host, Operation};
    ///
    /// let mut host = Host::new();
    /// let set = host.create(1, 1, 0o666)?;
    /// assert_eq!(host.operate(2, set, &[Operation::new(0, -3)])?, Answer::Asleep { position: 0 });
    /// assert_eq!(host.set_value(1, set, 0, 2)?.len(), 0);
    /// assert_eq!(host.set_value(1, set, 0, 4)?.len(), 1);
    /// assert_eq!(host.query(1, set, 0)?.value, 1);
    /// # Ok::<(), vairolent::Error>(())
    /// ```
    pub fn set_value(
        &mut self,
        process: u8,
        identifier: i32,
        number: u16,
        value: i32,
    ) -> Result<Wakings, Error> {
        let (_, wakings) =
            lend!(self to vairolent_set_value_in(process, identifier, number, value))?;
        Ok(wakings)
    }

    /// Sets all semaphores of a set at once, to as many values, from semaphore 0 on, and clears the
    /// set's adjustments for all processes.
    ///
    /// Then [sleepers are woken](Host), even if the values are the same as before: each is judged on
    /// all the new values, and none while only some are set. The last processes stay. What
    /// [`Host::query_set`] reads can be set again.
    ///
    /// # Errors
    ///
    /// In the order of the checks:
    ///
    /// - [`Error::NoProcess`]: the process is not 1 to 8.
    /// - [`Error::ProcessAsleep`]: the process is asleep.
    /// - [`Error::Invalid`]: the identifier names no live set.
    /// - [`Error::NotPermitted`]: altering is [not permitted](Host#what-a-process-may-do).
    /// - [`Error::Invalid`]: the number of values is not the set's count.
    /// - [`Error::BadValue`]: one of the values is not 0 to 32,767.
    ///
    /// ```
    /// use vairolent::{Answer, Ending, Host, Operation, Waking};
    ///
    /// let mut host = Host::new();
    /// let set = host.create(2, 2, 0o666)?;
    /// let _ = host.set_all(2, set, &[0, 7])?;
    /// // Process 1 waits for the first semaphore, but not for the second.
    /// let operations = [Operation::new(0, -1), Operation::new(1, 0).nowait()];
    /// assert_eq!(host.operate(1, set, &operations)?, Answer::Asleep { position: 0 });
    /// // By the first value alone it would end with EAGAIN.
    /// let mut wakings = host.set_all(2, set, &[5, 0])?;
    /// assert_eq!(wakings.next(), Some(Waking { process: 1, ending: Ending::Done }));
    /// # Ok::<(), vairolent::Error>(())
    /// ```
    pub fn set_all(
        &mut self,
        process: u8,
        identifier: i32,
        values: &[i32],
    ) -> Result<Wakings, Error> {
        let bytes = size_of_val(values);
        // They lie in memory as the archive takes them: the platform is little-endian.
        let values = values.as_ptr().cast();
        let (_, wakings) = lend!(self to vairolent_set_all_in(process, identifier, values, bytes))?;
        Ok(wakings)
    }

    /// Removes a set. Its sleepers are ended with [`Ending::Removed`](crate::Ending::Removed),
    /// oldest first, without a look; its adjustments are put to zero.
    ///
    /// # Errors
    ///
    /// In the order of the checks:
    ///
    /// - [`Error::NoProcess`]: the process is not 1 to 8.
    /// - [`Error::ProcessAsleep`]: the process is asleep.
    /// - [`Error::Invalid`]: the identifier names no live set.
    /// - [`Error::NotOwner`]: the process is neither of the set's owner nor of user 0.
    ///
    /// ```
    /// use vairolent::{Answer, Ending, Error, Host, Operation, Waking};
    ///
    /// let mut host = Host::new();
    /// let set = host.create(1, 1, 0o666)?;
    /// assert_eq!(host.operate(5, set, &[Operation::new(0, -1)])?, Answer::Asleep { position: 0 });
    /// let mut wakings = host.remove(1, set)?;
    /// assert_eq!(wakings.next(), Some(Waking { process: 5, ending: Ending::Removed }));
    /// assert_eq!(host.remove(1, set), Err(Error::Invalid));
    /// # Ok::<(), vairolent::Error>(())
    /// ```
    pub fn remove(&mut self, process: u8, identifier: i32) -> Result<Wakings, Error> {
        let (_, wakings) = lend!(self to vairolent_remove_in(process, identifier))?;
        Ok(wakings)
    }

    /// Interrupts a process. If it is asleep, its call is ended with
    /// [`Ending::Interrupted`](crate::Ending::Interrupted), without a look; if it is awake, nothing
    /// changes.
    ///
    /// # Errors
    ///
    /// - [`Error::NoProcess`]: the process is not 1 to 8.
    ///
    /// ```
    /// use vairolent::{Answer, Ending, Host, Operation, Waking};
    ///
    /// let mut host = Host::new();
    /// let set = host.create(5, 1, 0o666)?;
    /// assert_eq!(host.operate(5, set, &[Operation::new(0, -1)])?, Answer::Asleep { position: 0 });
    /// let mut wakings = host.signal(5)?;
    /// assert_eq!(wakings.next(), Some(Waking { process: 5, ending: Ending::Interrupted }));
    /// assert_eq!(host.signal(5)?.len(), 0);
    /// # Ok::<(), vairolent::Error>(())
    /// ```
    pub fn signal(&mut self, process: u8) -> Result<Wakings, Error> {
        let (_, wakings) = lend!(self to vairolent_signal_in(process))?;
        Ok(wakings)
    }

    /// Ends a process. If it is asleep, its call is taken out without a waking.
    ///
    /// Then each of its adjustments is added to its semaphore, cut to 0 to 32,767, and put to zero;
    /// and [sleepers are woken](Host), set by set from slot 0 up. The last processes stay, and so do
    /// the user and group, for the next process by that number: [`Host::act_as`] tells others.
    ///
    /// # Errors
    ///
    /// - [`Error::NoProcess`]: the process is not 1 to 8.
    ///
    /// ```
    /// use vairolent::{Host, Operation};
    ///
    /// let mut host = Host::new();
    /// let set = host.create(1, 1, 0o666)?;
    /// let _ = host.operate(1, set, &[Operation::new(0, 7).undo()])?;
    /// assert_eq!(host.query(2, set, 0)?.value, 7);
    /// assert_eq!(host.exit(1)?.len(), 0);
    /// assert_eq!(host.query(2, set, 0)?.value, 0);
    /// # Ok::<(), vairolent::Error>(())
    /// ```
    pub fn exit(&mut self, process: u8) -> Result<Wakings, Error> {
        let (_, wakings) = lend!(self to vairolent_exit_in(process))?;
        Ok(wakings)
    }

    /// Tells the present time, in milliseconds since any moment that the program keeps to; a fresh
    /// host was told 0.
    ///
    /// Every sleeper with a wait whose start plus wait, as an exact sum, is at or below it is ended
    /// with [`Ending::TimedOut`](crate::Ending::TimedOut), oldest first over all sets, without a look.
    /// No value changes, so that nobody else is judged. Between two times that are told no wait ends:
    /// who is past its own sleeps on, and can still be woken.
    ///
    /// # Errors
    ///
    /// - [`Error::BadTime`]: the time is below the last told, or above [`TIME_MAX`](crate::TIME_MAX).
    ///   It is not told then.
    ///
    /// ```
    /// use vairolent::{Answer, Ending, Error, Host, Operation, Waking};
    ///
    /// let mut host = Host::new();
    /// let set = host.create(5, 1, 0o666)?;
    /// assert_eq!(host.clock(70_000)?.len(), 0);
    /// let take = [Operation::new(0, -1)];
    /// assert_eq!(host.operate_within(5, set, &take, 250)?, Answer::Asleep { position: 0 });
    /// assert_eq!(host.clock(69_999), Err(Error::BadTime));
    /// let mut wakings = host.clock(70_250)?;
    /// assert_eq!(wakings.next(), Some(Waking { process: 5, ending: Ending::TimedOut }));
    /// # Ok::<(), vairolent::Error>(())
    /// ```
    pub fn clock(&mut self, time: u64) -> Result<Wakings, Error> {
        // It is refused for its time alone.
        let told = lend!(self to vairolent_clock_in(time));
        told.map(|(_, wakings)| wakings).map_err(|_| Error::BadTime)
    }

    /// Tells the user and the group of a process, by which [its calls are
    /// permitted](Host#what-a-process-may-do) from then on. No permission is asked for it. The sets
    /// that the process has made keep their owner and owning group.
    ///
    /// # Errors
    ///
    /// In the order of the checks:
    ///
    /// - [`Error::NoProcess`]: the process is not 1 to 8.
    /// - [`Error::ProcessAsleep`]: the process is asleep.
    ///
    /// ```
    /// use vairolent::{Error, Host};
    ///
    /// let mut host = Host::new();
    /// host.act_as(1, 1_000, 100)?;
    /// host.act_as(2, 2_000, 100)?;
    /// let set = host.create(1, 1, 0o640)?;
    /// assert!(host.query(2, set, 0).is_ok());
    /// assert_eq!(host.set_value(2, set, 0, 1), Err(Error::NotPermitted));
    /// assert_eq!(host.remove(2, set), Err(Error::NotOwner));
    /// host.act_as(2, 1_000, 300)?;
    /// assert!(host.remove(2, set).is_ok());
    /// # Ok::<(), vairolent::Error>(())
    /// ```
    pub fn act_as(&mut self, process: u8, user: u32, group: u32) -> Result<(), Error> {
        // It wakes nobody.
        lend!(self to vairolent_act_as_in(process, user, group)).map(drop)
    }

    /// Shows a semaphore: its value, its last process, and who waits there.
    ///
    /// # Errors
    ///
    /// In the order of the checks:
    ///
    /// - [`Error::NoProcess`]: the process is not 1 to 8.
    /// - [`Error::ProcessAsleep`]: the process is asleep.
    /// - [`Error::Invalid`]: the identifier names no live set.
    /// - [`Error::NotPermitted`]: reading is [not permitted](Host#what-a-process-may-do).
    /// - [`Error::Invalid`]: the number is at or above the set's count.
    ///
    /// ```
    /// use vairolent::{Answer, Host, Operation};
    ///
    /// let mut host = Host::new();
    /// let set = host.create(1, 1, 0o666)?;
    /// assert_eq!(host.operate(3, set, &[Operation::new(0, -1)])?, Answer::Asleep { position: 0 });
    /// let semaphore = host.query(1, set, 0)?;
    /// assert_eq!((semaphore.increase, semaphore.increase_mask), (1, 0b0000_0100));
    /// # Ok::<(), vairolent::Error>(())
    /// ```
    pub fn query(&self, process: u8, identifier: i32, number: u16) -> Result<Semaphore, Error> {
        let Host { row, adjustments } = self;
        // SAFETY: The host is fresh or as the last event left it, since its parts are private.
        let seen =
            unsafe { archive::vairolent_query_in(row, adjustments, process, identifier, number) };
        Error::check(seen.code, None)?;
        Ok(Semaphore {
            value: seen.value,
            last: seen.last,
            increase: seen.increase,
            zero: seen.zero,
            increase_mask: seen.increase_mask,
            zero_mask: seen.zero_mask,
        })
    }

    /// Reads all values of a set at once, with all else that queries show: each of its semaphores as
    /// [`Host::query`] does.
    ///
    /// Each sleeper of the set is judged once for all of them, where a query of each semaphore would
    /// judge it again and again. These judgings are no looks. In a run file this is the event of
    /// kind 11, whose line has value, increase and zero of each semaphore.
    ///
    /// # Errors
    ///
    /// In the order of the checks:
    ///
    /// - [`Error::NoProcess`]: the process is not 1 to 8.
    /// - [`Error::ProcessAsleep`]: the process is asleep.
    /// - [`Error::Invalid`]: the identifier names no live set.
    /// - [`Error::NotPermitted`]: reading is [not permitted](Host#what-a-process-may-do).
    ///
    /// ```
    /// use vairolent::{Answer, Host, Operation};
    ///
    /// let mut host = Host::new();
    /// let set = host.create(1, 3, 0o666)?;
    /// assert_eq!(host.operate(3, set, &[Operation::new(0, -1)])?, Answer::Asleep { position: 0 });
    /// assert_eq!(host.operate(5, set, &[Operation::new(2, -1)])?, Answer::Asleep { position: 0 });
    /// let _ = host.set_all(1, set, &[0, 4, 0])?;
    /// let seen = host.query_set(1, set)?;
    /// let values: Vec<u16> = seen.semaphores().iter().map(|each| each.value).collect();
    /// assert_eq!(values, [0, 4, 0]);
    /// let waiting: Vec<u32> = seen.semaphores().iter().map(|each| each.increase).collect();
    /// assert_eq!(waiting, [1, 0, 1]);
    /// assert_eq!(seen.judged(), 2);
    /// # Ok::<(), vairolent::Error>(())
    /// ```
    pub fn query_set(&self, process: u8, identifier: i32) -> Result<Set, Error> {
        let Host { row, adjustments } = self;
        // SAFETY: The host is fresh or as the last event left it, since its parts are private.
        let seen =
            unsafe { archive::vairolent_query_set_in(row, adjustments, process, identifier) };
        Error::check(seen.code, None)?;
        Ok(Set::new(&seen))
    }

    /// The undo adjustments of a process, by slot and number: what its exit would add to each
    /// semaphore. All are 0 for a process that is not 1 to 8.
    ///
    /// A set's slot is its identifier modulo 4.
    ///
    /// ```
    /// use vairolent::{Host, Operation};
    ///
    /// let mut host = Host::new();
    /// let set = host.create(3, 2, 0o666)?;
    /// let _ = host.operate(3, set, &[Operation::new(1, 5).undo()])?;
    /// assert_eq!(host.adjustments(3)[0][..2], [0, -5]);
    /// assert_eq!(host.adjustments(4), [[0; 8]; 4]);
    /// # Ok::<(), vairolent::Error>(())
    /// ```
    pub fn adjustments(&self, process: u8) -> [[i16; SEMAPHORES]; SETS] {
        let mut rows = [[0; SEMAPHORES]; SETS];
        let all = self.adjustments.chunks_exact(SETS * SEMAPHORES);
        let own = all.zip(1..).find(|&(_, each)| each == process);
        let own = own.into_iter().flat_map(|(own, _)| own.chunks_exact(SEMAPHORES));
        own.zip(&mut rows).for_each(|(from, to)| to.copy_from_slice(from));
        rows
    }
}

/// Fresh, as [`Host::new`] gives it.
impl Default for Host {
    fn default() -> Host {
        Host::new()
    }
}

/// Short: queries show what a host holds.
impl fmt::Debug for Host {
    fn fmt(&self, f: &mut fmt::Formatter) -> fmt::Result {
        f.debug_struct("Host").finish_non_exhaustive()
    }
}
