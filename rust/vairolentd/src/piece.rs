//! One file of the recording, while it grows and when it is whole.
//!
//! FILE.part has the bodies of its events, each behind its length in two bytes, with zeros behind them;
//! and beside it the lines of these events grow, where they are wanted. When the piece is whole, FILE is
//! a run file, and the lines are its listing. A text says which process had which number. What the disk
//! has no room for stays in memory until there is some.

use std::fs::{self, File, OpenOptions};
use std::io::{self, Write};
use std::path::{Path, PathBuf};

use runtext::runfile::{self, ENTRY, FILE_MAX, HEAD};

use crate::system::Mapped;

/// The bodies, each behind its length, and the file that has them too, where there is one.
struct Part {
    path: PathBuf,
    bytes: Vec<u8>,
    file: Option<Mapped>,
}

impl Part {
    /// No file has more, since each body takes four more bytes in it, and two here.
    const ROOM: usize = FILE_MAX;

    fn new(path: PathBuf) -> Part {
        Part { path, bytes: Vec::new(), file: None }
    }

    fn add(&mut self, body: &[u8]) {
        let at = self.bytes.len();
        self.bytes.extend((body.len() as u16).to_le_bytes());
        self.bytes.extend(body);
        if let Some(file) = &mut self.file {
            file.put(at, &self.bytes[at..]);
        }
    }

    /// Makes the file, where it could not be made yet.
    fn save(&mut self) -> io::Result<()> {
        if self.file.is_none() {
            let mut file = Mapped::create(&self.path, Part::ROOM)?;
            if !self.bytes.is_empty() {
                file.put(0, &self.bytes);
            }
            self.file = Some(file);
        }
        Ok(())
    }
}

/// A text that only grows, and how much of it is on the disk.
struct Growing {
    path: PathBuf,
    file: Option<File>,
    bytes: Vec<u8>,
    saved: usize,
}

impl Growing {
    fn new(path: PathBuf) -> Growing {
        Growing { path, file: None, bytes: Vec::new(), saved: 0 }
    }

    fn save(&mut self) -> io::Result<()> {
        if self.saved == self.bytes.len() {
            return Ok(());
        }
        if self.file.is_none() {
            let mut options = OpenOptions::new();
            self.file = Some(options.create_new(true).append(true).open(&self.path)?);
        }
        let file = self.file.as_mut().expect("it is open");
        while self.saved < self.bytes.len() {
            match file.write(&self.bytes[self.saved..])? {
                0 => return Err(io::ErrorKind::WriteZero.into()),
                some => self.saved += some,
            }
        }
        Ok(())
    }
}

pub struct Piece {
    path: PathBuf,
    part: Part,
    lines: Option<Growing>,
    who: Growing,
    events: usize,
    /// Bytes of its run file.
    size: usize,
}

impl Piece {
    pub fn new(path: PathBuf, with_lines: bool) -> Piece {
        let part = Part::new(part_of(&path));
        let lines = with_lines.then(|| Growing::new(part_of(&listing_of(&path))));
        let who = Growing::new(path.with_extension("who"));
        Piece { path, part, lines, who, events: 0, size: HEAD }
    }

    pub fn path(&self) -> &Path {
        &self.path
    }

    pub fn events(&self) -> usize {
        self.events
    }

    /// Is there room for an event with this body?
    pub fn fits(&self, body: &[u8]) -> bool {
        self.size + ENTRY + body.len() <= FILE_MAX
    }

    pub fn add(&mut self, body: &[u8], line: impl FnOnce() -> String) {
        self.part.add(body);
        if let Some(lines) = &mut self.lines {
            lines.bytes.extend(format!("{} {}\n", self.events, line()).into_bytes());
        }
        self.events += 1;
        self.size += ENTRY + body.len();
    }

    /// Says who a process is, from the next event on.
    pub fn name(&mut self, process: u8, who: &str) {
        let line = format!("event {}: process {process} is {who}\n", self.events);
        self.who.bytes.extend(line.into_bytes());
    }

    /// Brings to the disk what is not there yet.
    pub fn save(&mut self) -> io::Result<()> {
        self.part.save()?;
        self.who.save()?;
        self.lines.as_mut().map_or(Ok(()), Growing::save)
    }

    /// Makes it whole.
    pub fn finish(&mut self) -> io::Result<()> {
        self.who.save()?;
        finish(&self.path, &self.part.bytes, self.lines.as_ref().map(|lines| &lines.bytes[..]))
    }
}

/// Makes a piece whole that a daemon left growing when it was killed.
pub fn recover(path: &Path) -> io::Result<()> {
    let lines = match fs::read(part_of(&listing_of(path))) {
        Err(error) if error.kind() == io::ErrorKind::NotFound => None,
        read => Some(read?),
    };
    finish(path, &fs::read(part_of(path))?, lines.as_deref())
}

/// Writes run file and listing. Then what grew is no longer needed.
fn finish(path: &Path, part: &[u8], lines: Option<&[u8]>) -> io::Result<()> {
    let bodies = bodies(part);
    if let Some(lines) = lines {
        let head = format!("events {}\n", bodies.len());
        put(&listing_of(path), &[head.as_bytes(), lines].concat())?;
    }
    put(path, &runfile::of_bodies(&bodies))?;
    for part in [part_of(&listing_of(path)), part_of(path)] {
        match fs::remove_file(part) {
            Err(error) if error.kind() != io::ErrorKind::NotFound => return Err(error),
            _ => {}
        }
    }
    Ok(())
}

/// The bodies of a part, up to the first length that is 0.
fn bodies(part: &[u8]) -> Vec<Vec<u8>> {
    let mut bodies = Vec::new();
    let mut rest = part;
    while let [low, high, behind @ ..] = rest {
        let length = usize::from(u16::from_le_bytes([*low, *high]));
        if length == 0 || behind.len() < length {
            break;
        }
        bodies.push(behind[..length].to_vec());
        rest = &behind[length..];
    }
    bodies
}

/// Writes a file that is there whole or not at all.
fn put(path: &Path, bytes: &[u8]) -> io::Result<()> {
    let new = behind(path, ".new");
    fs::write(&new, bytes)?;
    fs::rename(&new, path)
}

fn part_of(path: &Path) -> PathBuf {
    behind(path, ".part")
}

fn listing_of(path: &Path) -> PathBuf {
    path.with_extension("lines")
}

fn behind(path: &Path, more: &str) -> PathBuf {
    let mut name = path.as_os_str().to_owned();
    name.push(more);
    name.into()
}

#[cfg(test)]
mod tests {
    use super::*;

    #[test]
    fn bodies_end_at_the_first_zero() {
        let part = [2, 0, 5, 1, 1, 0, 9, 0, 0, 7, 7, 0];
        assert_eq!(bodies(&part), [vec![5, 1], vec![9]]);
        assert_eq!(bodies(&part[..8]), [vec![5, 1], vec![9]]);
        assert_eq!(bodies(&part[..6]), [vec![5, 1]]);
        assert_eq!(bodies(&[0, 0, 5]), Vec::<Vec<u8>>::new());
    }

    #[test]
    fn a_piece_is_full_before_its_file_is_too_long() {
        let mut piece = Piece::new("none.run".into(), false);
        let body = [0; 11];
        while piece.fits(&body) {
            piece.add(&body, String::new);
        }
        assert_eq!(piece.events(), (FILE_MAX - HEAD) / (ENTRY + body.len()));
        let file = runfile::of_bodies(&super::bodies(&piece.part.bytes));
        assert_eq!(file.len(), piece.size);
        assert!(file.len() <= FILE_MAX && file.len() + ENTRY + body.len() > FILE_MAX);
    }
}
