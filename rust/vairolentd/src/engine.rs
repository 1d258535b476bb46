//! The one host, and the recording of all that happens to it.

use vairolent::{Event, Host, Told};

use crate::beginning::Beginning;
use crate::caller::Role;
use crate::known::Known;
use crate::record::Record;

/// The longest beginning of a run file, in bytes: half of it is left for what is new.
const BEGINNING_MAX: usize = 32_768;

pub struct Engine {
    host: Host,
    known: Known,
    record: Record,
}

impl Engine {
    /// A fresh host, recorded in a folder.
    pub fn new(record: Record) -> Engine {
        Engine { host: Host::new(), known: Known::default(), record }
    }

    /// Hands an event in and records it.
    pub fn run(&mut self, event: &Event) -> Told {
        let body = event.body().expect("no packet has so many operations or values");
        if !self.record.fits(&body) {
            self.record.next(Beginning::of(&self.host, &self.known, BEGINNING_MAX));
        }
        let told = self.host.run(event);
        self.known.note(event, &told);
        self.record.add(&body, || event.line(&told));
        told
    }

    /// From now on a number that is awake acts as this. Where it does already, there is no event.
    pub fn act_as(&mut self, process: u8, role: Role) {
        if let Some(event) = self.known.change(process, role) {
            let told = self.run(&event);
            assert!(matches!(told, Told::Done(_)), "only a sleeper is refused: {told:?}");
        }
    }

    /// What an event would tell, on a host that it leaves so; nothing happens.
    pub fn would(&self, event: &Event) -> (Told, Host) {
        let mut host = self.host.clone();
        (host.run(event), host)
    }

    pub fn host(&self) -> &Host {
        &self.host
    }

    pub fn known(&self) -> &Known {
        &self.known
    }

    pub fn record(&mut self) -> &mut Record {
        &mut self.record
    }
}
