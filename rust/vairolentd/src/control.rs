//! semctl.

use vairolent::{Event, Told, OPERATIONS, PROCESSES, SEMAPHORES, SETS, VALUE_MAX};

use crate::caller::{Caller, Role};
use crate::clock;
use crate::daemon::Daemon;
use crate::errno::{Errno, EINVAL, EPERM};
use crate::message::Reply;
use crate::sets::{Set, ALTER, READ};

/// The commands, by their numbers in <sys/ipc.h> and <sys/sem.h>.
mod command {
    pub const REMOVE: i32 = 0;
    pub const CHANGE: i32 = 1;
    pub const STAT: i32 = 2;
    pub const INFO: i32 = 3;
    pub const GET_PID: i32 = 11;
    pub const GET_VALUE: i32 = 12;
    pub const GET_ALL: i32 = 13;
    pub const GET_INCREASE: i32 = 14;
    pub const GET_ZERO: i32 = 15;
    pub const SET_VALUE: i32 = 16;
    pub const SET_ALL: i32 = 17;
    pub const SLOT_STAT: i32 = 18;
    pub const SLOT_INFO: i32 = 19;
    pub const SLOT_STAT_ANY: i32 = 20;
}

/// A call as it came.
pub struct Control<'a> {
    pub identifier: i32,
    pub number: i32,
    pub command: i32,
    pub data: &'a [u8],
}

impl Daemon {
    pub fn control(&mut self, caller: &Caller, call: &Control) -> Result<Reply, Errno> {
        match call.command {
            _ if call.identifier < 0 => Err(EINVAL),
            command::INFO | command::SLOT_INFO => Ok(self.info(call.command)),
            command::STAT => {
                let set = self.permitted(caller, call.identifier, READ)?;
                Ok(Reply::with(0, status(set)))
            }
            command::SLOT_STAT | command::SLOT_STAT_ANY => {
                let set = self.sets.in_slot(call.identifier)?;
                let asked = if call.command == command::SLOT_STAT { READ } else { 0 };
                set.permits(caller, asked)?;
                Ok(Reply::with(set.identifier, status(set)))
            }
            command::REMOVE => Ok(self.remove(caller, call.identifier)),
            // Owner and mode stay as they were made.
            command::CHANGE => self.sets.find(call.identifier).and(Err(EPERM)),
            command::GET_ALL => self.read_all(caller, call.identifier),
            command::GET_PID..=command::GET_ZERO => self.query(caller, call),
            command::SET_VALUE | command::SET_ALL => self.set(caller, call),
            _ => Err(EINVAL),
        }
    }

    /// How many semaphores a set has, for one who is going to read or alter all of them.
    pub fn count(&self, caller: &Caller, identifier: i32, alter: bool) -> Result<Reply, Errno> {
        let set = self.permitted(caller, identifier, if alter { ALTER } else { READ })?;
        Ok(Reply::of(set.count as i32))
    }

    fn permitted(&self, caller: &Caller, identifier: i32, asked: u16) -> Result<&Set, Errno> {
        let set = self.sets.find(identifier)?;
        set.permits(caller, asked).map(|()| set)
    }

    fn remove(&mut self, caller: &Caller, identifier: i32) -> Reply {
        let process = self.number_at(identifier, caller);
        let code = self.settle(&Event::Remove { process, identifier });
        if code == 0 {
            self.sets.remove(identifier);
        }
        Reply::ended(code)
    }

    fn query(&mut self, caller: &Caller, call: &Control) -> Result<Reply, Errno> {
        let (identifier, number) = (call.identifier, number(call.number));
        let process = self.number_at(identifier, caller);
        let seen = match self.engine.run(&Event::Query { process, identifier, number }) {
            Told::Seen(seen) => seen,
            Told::Refused(error) => return Err(Errno(error.code())),
            _ => unreachable!("a query shows or is refused"),
        };
        Ok(Reply::of(match call.command {
            command::GET_PID => self.sets.find(identifier)?.lasts[usize::from(number)],
            command::GET_VALUE => seen.value.into(),
            command::GET_INCREASE => seen.increase as i32,
            _ => seen.zero as i32,
        }))
    }

    fn read_all(&mut self, caller: &Caller, identifier: i32) -> Result<Reply, Errno> {
        let process = self.number_at(identifier, caller);
        match self.engine.run(&Event::ReadAll { process, identifier }) {
            Told::Read(set) => {
                let values = set.semaphores().iter().flat_map(|each| each.value.to_le_bytes());
                Ok(Reply::with(0, values.collect()))
            }
            Told::Refused(error) => Err(Errno(error.code())),
            _ => unreachable!("a reading shows or is refused"),
        }
    }

    fn set(&mut self, caller: &Caller, call: &Control) -> Result<Reply, Errno> {
        let (identifier, number) = (call.identifier, number(call.number));
        let process = self.number_at(identifier, caller);
        let code = if call.command == command::SET_VALUE {
            let value = i32::from_le_bytes(call.data.try_into().map_err(|_| EINVAL)?);
            self.settle(&Event::SetValue { process, identifier, number, value })
        } else {
            let value = |two: &[u8]| i32::from(u16::from_le_bytes([two[0], two[1]]));
            let values: Vec<i32> = call.data.chunks_exact(2).map(value).collect();
            self.settle(&Event::SetAll { process, identifier, values: &values })
        };
        if code == 0 {
            self.sets.find_mut(identifier)?.changed = clock::wall();
        }
        Ok(Reply::ended(code))
    }

    /// A struct seminfo, and the highest slot in use.
    fn info(&self, command: i32) -> Reply {
        let semaphores: usize = self.sets.iter().map(|set| set.count).sum();
        let used = [self.sets.iter().count(), semaphores];
        let (sets_used, semaphores_used) = match command {
            command::SLOT_INFO => (used[0] as i32, used[1] as i32),
            _ => (0, VALUE_MAX.into()),
        };
        let all = (SETS * SEMAPHORES) as i32;
        let info = [
            all,
            SETS as i32,
            all,
            PROCESSES as i32 - 1,
            SEMAPHORES as i32,
            OPERATIONS as i32,
            all,
            sets_used,
            VALUE_MAX.into(),
            semaphores_used,
        ];
        let slots = (0..SETS as i32).filter(|&slot| self.sets.in_slot(slot).is_ok());
        let data = info.iter().flat_map(|number| number.to_le_bytes()).collect();
        Reply::with(slots.last().unwrap_or(0), data)
    }
}

/// Every number over the most is refused alike.
fn number(number: i32) -> u16 {
    u16::try_from(number).unwrap_or(u16::MAX)
}

/// A struct status of the protocol.
fn status(set: &Set) -> Vec<u8> {
    let generation = set.identifier as u32 / SETS as u32;
    let Role { user, group } = set.owner;
    let (key, mode, count) = (set.key as u32, set.mode.into(), set.count as u32);
    let words = [key, user, group, user, group, mode, generation, count];
    let times = [set.operated, set.changed];
    let words = words.iter().flat_map(|word| word.to_le_bytes());
    words.chain(times.iter().flat_map(|time| time.to_le_bytes())).collect()
}
