//! semget: the set of a key, or a new one.

use vairolent::{Event, Told, SEMAPHORES};

use crate::caller::Caller;
use crate::clock;
use crate::daemon::Daemon;
use crate::errno::{Errno, EEXIST, EINVAL, ENOENT};
use crate::sets::{Set, PRIVATE};

const CREATE: i32 = 0o1000;
const EXCLUSIVE: i32 = 0o2000;

impl Daemon {
    /// The identifier, as Linux finds or makes it.
    pub fn get(&mut self, caller: &Caller, key: i32, count: i32, flags: i32) -> Result<i32, Errno> {
        match self.sets.with_key(key) {
            _ if count < 0 => Err(EINVAL),
            Some(_) if flags & (CREATE | EXCLUSIVE) == CREATE | EXCLUSIVE => Err(EEXIST),
            Some(set) if count as usize > set.count => Err(EINVAL),
            Some(set) => {
                // Whatever any class is to have, the caller must have.
                let asked = (flags | flags >> 3 | flags >> 6) as u16;
                set.permits(caller, asked).map(|()| set.identifier)
            }
            None if key != PRIVATE && flags & CREATE == 0 => Err(ENOENT),
            None => self.create(caller, key, count, flags),
        }
    }

    fn create(&mut self, caller: &Caller, key: i32, count: i32, flags: i32) -> Result<i32, Errno> {
        // Every number over the most is refused alike.
        let count = u8::try_from(count).unwrap_or(u8::MAX);
        let mode = flags as u16 & 0o777;
        let process = self.number_for(caller, caller.role);
        let identifier = match self.engine.run(&Event::Create { process, count, mode }) {
            Told::Made(identifier) => identifier,
            Told::Refused(error) => return Err(Errno(error.code())),
            _ => unreachable!("a create is made or refused"),
        };
        self.sets.add(Set {
            identifier,
            key,
            owner: caller.role,
            mode,
            count: count.into(),
            operated: 0,
            changed: clock::wall(),
            lasts: [0; SEMAPHORES],
        });
        Ok(identifier)
    }
}
