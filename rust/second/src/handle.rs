//! The eleven events of a host.

use crate::answer::{Answer, Reading, Report, State, ASLEEP};
use crate::clock::{Wait, TIME_MAX};
use crate::errno::Errno;
use crate::event::Event;
use crate::host::{identifier, Host, SLOTS};
use crate::judge::{Outcome, SEMAPHORES, VALUE_MAX};
use crate::permission::{Credentials, ALTER, MODE_MAX, READ};
use crate::process::Process;
use crate::set::Set;

impl Host {
    pub fn handle(&mut self, event: &Event) -> Answer {
        match *event {
            Event::Create { process, count, mode } => self.create(process, count, mode).into(),
            Event::Operate { process, identifier, wait, operations } => {
                self.operate(process, identifier, wait, operations).into()
            }
            Event::SetValue { process, identifier, number, value } => {
                self.set_value(process, identifier, number, value).into()
            }
            Event::Remove { process, identifier } => self.remove(process, identifier).into(),
            Event::Signal { process } => self.signal(process).into(),
            Event::Exit { process } => self.exit(process).into(),
            Event::Query { process, identifier, number } => {
                self.query(process, identifier, number).into()
            }
            Event::Clock { time } => self.clock(time).into(),
            Event::SetAll { process, identifier, values } => {
                self.set_all(process, identifier, values).into()
            }
            Event::ReadAll { process, identifier } => self.query_set(process, identifier).into(),
            Event::ActAs { process, user, group } => self.act_as(process, user, group).into(),
        }
    }

    fn create(&mut self, process: u8, count: u8, mode: u16) -> Result<Report, Errno> {
        let creator = self.caller(process)?;
        if !(1..=SEMAPHORES as u8).contains(&count) || mode > MODE_MAX {
            return Err(Errno::Einval);
        }
        let slot = self.sets.iter().position(|set| !set.is_live()).ok_or(Errno::Enospc)?;
        let Credentials { user, group } = self.credentials[creator.index()];
        let set = &mut self.sets[slot];
        set.count = count;
        set.owner = user;
        set.group = group;
        set.mode = mode;
        Ok(Report { value: identifier(slot, set), ..Report::default() })
    }

    fn operate(
        &mut self,
        process: u8,
        identifier: i32,
        wait: Option<u32>,
        bytes: &[u8],
    ) -> Result<Report, Errno> {
        let process = self.caller(process)?;
        self.queue.read(process, bytes)?;
        let slot = self.find(identifier)?;
        let array = &self.queue.call(process).array;
        self.credentials[process.index()].admit(&self.sets[slot], array)?;
        let (outcome, touched) = self.sets[slot].perform(process, array);
        match outcome {
            Outcome::Refused(errno, position) => {
                Ok(Report::decided_at(position, errno.number().into()))
            }
            // There is no time to sleep.
            Outcome::Sleep(position) if wait == Some(0) => {
                Ok(Report::decided_at(position, Errno::Eagain.number().into()))
            }
            Outcome::Sleep(position) => {
                let names = array.names();
                let wait = Wait { start: self.time, length: wait };
                self.queue.push(process, slot, names, wait);
                Ok(Report::decided_at(position, ASLEEP))
            }
            Outcome::Done => Ok(self.treated(slot, touched)),
        }
    }

    fn set_value(
        &mut self,
        process: u8,
        identifier: i32,
        number: u16,
        value: i32,
    ) -> Result<Report, Errno> {
        let (slot, number) = self.open_at(process, identifier, number, ALTER)?;
        if !(0..=VALUE_MAX).contains(&value) {
            return Err(Errno::Erange);
        }
        let set = &mut self.sets[slot];
        // Touched even where the value is the same, since the adjustments may not be.
        let touched = 1 << number;
        set.values[number] = value;
        for adjustments in &mut set.adjustments {
            adjustments[number] = 0;
        }
        Ok(self.treated(slot, touched))
    }

    fn remove(&mut self, process: u8, identifier: i32) -> Result<Report, Errno> {
        let remover = self.caller(process)?;
        let slot = self.find(identifier)?;
        self.credentials[remover.index()].permit_removal(&self.sets[slot])?;
        let generation = self.sets[slot].generation.wrapping_add(1);
        self.sets[slot] = Set { generation, ..Set::FREE };
        let mut report = Report::default();
        while let Some(process) = self.queue.take_oldest_of_set(slot) {
            report.wakings.push(process, Errno::Eidrm.number(), None);
        }
        Ok(report)
    }

    fn signal(&mut self, process: u8) -> Result<Report, Errno> {
        let process = Process::new(process)?;
        let mut report = Report::default();
        if self.queue.take_out(process) {
            report.wakings.push(process, Errno::Eintr.number(), None);
        }
        Ok(report)
    }

    /// Gives back the process's adjustments in all sets, then treats each live set.
    fn exit(&mut self, process: u8) -> Result<Report, Errno> {
        let process = Process::new(process)?;
        let mut report = Report::default();
        self.queue.take_out(process);
        let mut touched = [0; SLOTS];
        for (slot, set) in self.sets.iter_mut().enumerate() {
            touched[slot] = set.undo(process);
        }
        for (slot, touched) in touched.into_iter().enumerate() {
            if self.sets[slot].is_live() {
                self.treat(slot, touched, &mut report);
            }
        }
        Ok(report)
    }

    fn query(&self, process: u8, identifier: i32, number: u16) -> Result<State, Errno> {
        let (slot, index) = self.open_at(process, identifier, number, READ)?;
        let set = &self.sets[slot];
        let mut state =
            State { value: set.values[index], last: set.last[index], ..State::default() };
        // Only who names the semaphore can stop there.
        for (process, sleeper) in self.queue.naming(slot, 1 << index) {
            if let Outcome::Sleep(stop) = set.outcome(process, &sleeper.array) {
                let operation = sleeper.array.at(stop);
                let bit = if operation.number == number { process.bit() } else { 0 };
                if operation.amount < 0 {
                    state.for_increase |= bit;
                } else {
                    state.for_zero |= bit;
                }
            }
        }
        Ok(state)
    }

    /// Tells the time. Whose wait is over ends; no value changes, so that nobody is looked at.
    fn clock(&mut self, time: u64) -> Result<Report, Errno> {
        if !(self.time..=TIME_MAX).contains(&time) {
            return Err(Errno::Einval);
        }
        self.time = time;
        let mut report = Report::default();
        while let Some(process) = self.queue.take_oldest_over(time) {
            report.wakings.push(process, Errno::Eagain.number(), None);
        }
        Ok(report)
    }

    fn set_all(&mut self, process: u8, identifier: i32, values: &[u8]) -> Result<Report, Errno> {
        let slot = self.open(process, identifier, ALTER)?;
        self.sets[slot].set_all(values)?;
        // Every semaphore is touched, even where its value is the same.
        Ok(self.treated(slot, u8::MAX))
    }

    /// The whole set at once: each of its sleepers is judged, and waits at the semaphore where it
    /// stops.
    pub fn query_set(&self, process: u8, identifier: i32) -> Result<Reading, Errno> {
        let slot = self.open(process, identifier, READ)?;
        let set = &self.sets[slot];
        let (count, values, last) = (set.count, set.values, set.last);
        let mut reading = Reading { count, values, last, ..Reading::default() };
        for (process, sleeper) in self.queue.of_set(slot) {
            reading.judged += 1;
            if let Outcome::Sleep(stop) = set.outcome(process, &sleeper.array) {
                let stopped = sleeper.array.at(stop);
                let waiters = if stopped.amount < 0 {
                    &mut reading.for_increase
                } else {
                    &mut reading.for_zero
                };
                waiters[usize::from(stopped.number)] |= process.bit();
            }
        }
        Ok(reading)
    }

    fn act_as(&mut self, process: u8, user: u32, group: u32) -> Result<Report, Errno> {
        let actor = self.caller(process)?;
        self.credentials[actor.index()] = Credentials { user, group };
        Ok(Report::default())
    }
}
