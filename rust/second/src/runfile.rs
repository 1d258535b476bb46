//! The run file: a table of contents, then the bodies.

use crate::bad::Bad;
use crate::event::{Body, Event};

/// The largest run file, in bytes.
pub const FILE_MAX: usize = 65_535;

/// Bytes of the head, and of one entry of the table.
pub const HEAD: usize = 2;
pub const ENTRY: usize = 4;

/// A file found good as a whole.
#[derive(Clone, Copy, Debug)]
pub struct RunFile<'a> {
    table: &'a [u8],
    bodies: &'a [u8],
}

impl<'a> RunFile<'a> {
    /// Checks the whole file before any of its events is seen.
    pub fn read(file: &'a [u8]) -> Result<RunFile<'a>, Bad> {
        let run = RunFile::split(file)?;
        run.check_offsets(file.len())?;
        for body in run.bodies() {
            Event::decode(body)?;
        }
        Ok(run)
    }

    pub fn len(&self) -> usize {
        self.table.len() / ENTRY
    }

    pub fn is_empty(&self) -> bool {
        self.table.is_empty()
    }

    pub fn events(&self) -> impl Iterator<Item = Event<'a>> {
        self.bodies().map(|body| Event::decode(body).expect("every body was checked by read"))
    }

    /// The bodies in order, once the offsets are known to be good.
    pub fn bodies(&self) -> impl Iterator<Item = &'a [u8]> {
        let mut rest = self.bodies;
        self.entries().map(move |(_, length)| {
            let (body, behind) = rest.split_at(length);
            rest = behind;
            body
        })
    }

    fn split(file: &'a [u8]) -> Result<RunFile<'a>, Bad> {
        if file.len() > FILE_MAX {
            return Err(Bad::Table);
        }
        let head = file.get(..HEAD).ok_or(Bad::Table)?;
        let events = usize::from(u16::from_le_bytes([head[0], head[1]]));
        let end = HEAD + ENTRY * events;
        let table = file.get(HEAD..end).ok_or(Bad::Table)?;
        Ok(RunFile { table, bodies: &file[end..] })
    }

    /// Each body begins where the one before ended, the first behind the table; the file ends
    /// with the last. Sums are taken in full width.
    fn check_offsets(&self, file_length: usize) -> Result<(), Bad> {
        let mut end = HEAD + self.table.len();
        for (offset, length) in self.entries() {
            if offset != end {
                return Err(Bad::Offset);
            }
            end = offset + length;
        }
        if end == file_length {
            Ok(())
        } else {
            Err(Bad::Offset)
        }
    }

    fn entries(&self) -> impl Iterator<Item = (usize, usize)> + 'a {
        self.table.chunks_exact(ENTRY).map(|entry| {
            let offset = u16::from_le_bytes([entry[0], entry[1]]);
            let length = u16::from_le_bytes([entry[2], entry[3]]);
            (usize::from(offset), usize::from(length))
        })
    }
}

/// The file with these bodies behind its table. Where it grows beyond what a run file may have,
/// the table keeps the low sixteen bits.
pub fn run_file(bodies: &[Body]) -> Vec<u8> {
    let mut file = (bodies.len() as u16).to_le_bytes().to_vec();
    let mut offset = HEAD + ENTRY * bodies.len();
    for body in bodies {
        file.extend_from_slice(&(offset as u16).to_le_bytes());
        file.extend_from_slice(&(body.len() as u16).to_le_bytes());
        offset += body.len();
    }
    file.extend(bodies.iter().flatten());
    file
}
