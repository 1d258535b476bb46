//! The recording: every event goes into a run file, and into a new one before the old would be too
//! long. The files of a folder are numbered from 000001 on; those that are there stay.
//!
//! NNNNNN.run begins with a fresh host, and `replay` gives its answers. NNNNNN.more goes on from the
//! file before it, where no short beginning could be made. NNNNNN.who says which process had which
//! number.

use std::fs::{self, File};
use std::io;
use std::path::{Path, PathBuf};

use vairolent::PROCESSES;

use crate::beginning::Beginning;
use crate::piece::{self, Piece};
use crate::say::say;
use crate::system;

/// Pieces that may wait for room on the disk, some 64 KB each.
const WAITING_MAX: usize = 256;

pub struct Record {
    folder: PathBuf,
    /// Locked, so that no other daemon records there.
    _lock: File,
    with_lines: bool,
    number: u32,
    piece: Piece,
    /// Who the processes are, by their numbers from 1 on: pid and name.
    who: [Option<(i32, String)>; PROCESSES],
    /// The number and the pid that the next event names.
    named: Option<(u8, i32)>,
    /// Full pieces that could not be made whole yet.
    waiting: Vec<Piece>,
    /// Did the disk fail the last time?
    failing: bool,
}

impl Record {
    /// Begins to record in a folder, behind the files that are there. What a killed daemon left is
    /// made whole first.
    pub fn begin(folder: &Path, with_lines: bool) -> io::Result<Record> {
        fs::create_dir_all(folder)?;
        let (lock, last) = recover(folder)?;
        let (folder, number) = (folder.to_path_buf(), last + 1);
        let mut piece = Piece::new(file(&folder, number, "run"), with_lines);
        piece.save()?;
        let (who, named, waiting, failing) = (Default::default(), None, Vec::new(), false);
        Ok(Record { folder, _lock: lock, with_lines, number, piece, who, named, waiting, failing })
    }

    /// Is there room in the present file for an event with this body?
    pub fn fits(&self, body: &[u8]) -> bool {
        self.piece.fits(body)
    }

    /// Is so much waiting for the disk that nothing more may happen? Then it is tried once more.
    pub fn is_full(&mut self) -> bool {
        if self.waiting.len() >= WAITING_MAX {
            self.save();
        }
        self.waiting.len() >= WAITING_MAX
    }

    /// From the next event on a number stands for this process.
    pub fn name(&mut self, process: u8, pid: i32) {
        self.named = Some((process, pid));
    }

    fn say_who(&mut self, process: u8, pid: i32) {
        let before = &mut self.who[usize::from(process) - 1];
        if before.as_ref().map_or(true, |who| who.0 != pid) {
            let comm = fs::read_to_string(format!("/proc/{pid}/comm")).unwrap_or_default();
            let who = format!("pid {pid}, {}", comm.trim_end().escape_debug());
            self.piece.name(process, &who);
            *before = Some((pid, who));
        }
    }

    pub fn add(&mut self, body: &[u8], line: impl FnOnce() -> String) {
        if let Some((process, pid)) = self.named.take() {
            self.say_who(process, pid);
        }
        self.piece.add(body, line);
        self.save();
    }

    /// Goes on in a new file: with this beginning, or without one from the file before.
    pub fn next(&mut self, beginning: Option<Beginning>) {
        self.number += 1;
        let extension = if beginning.is_some() { "run" } else { "more" };
        let next = Piece::new(file(&self.folder, self.number, extension), self.with_lines);
        if beginning.is_none() {
            say(format!("{} goes on from the file before it", next.path().display()));
        }
        self.waiting.push(std::mem::replace(&mut self.piece, next));
        for (process, who) in (1..).zip(&self.who) {
            who.iter().for_each(|(_, who)| self.piece.name(process, who));
        }
        for (body, line) in beginning.into_iter().flat_map(|beginning| beginning.events) {
            self.piece.add(&body, || line);
        }
        self.save();
    }

    /// Brings to the disk what is not there yet. Where it fails, that is said once, and everything is
    /// kept and tried again with the next event.
    fn save(&mut self) {
        let saved = self.try_save();
        match &saved {
            Err(error) if !self.failing => {
                say(format!("the recording cannot be written ({error}); it is kept in memory"));
            }
            Ok(()) if self.failing => say("the recording is written again, and whole"),
            _ => {}
        }
        self.failing = saved.is_err();
    }

    fn try_save(&mut self) -> io::Result<()> {
        while let Some(piece) = self.waiting.first_mut() {
            piece.finish()?;
            self.waiting.remove(0);
        }
        self.piece.save()
    }

    /// Makes the last file whole.
    pub fn end(&mut self) -> io::Result<()> {
        self.try_save()?;
        self.piece.finish()
    }

    /// What is recorded where, in words.
    pub fn in_words(&self) -> String {
        let (path, events) = (self.piece.path().display(), self.piece.events());
        let trouble = if self.failing { ", kept in memory: the disk fails" } else { "" };
        format!("recorded: {events} events in {path}{trouble}")
    }
}

/// Makes whole what a killed daemon left in a folder. The folder, locked, and the last number there.
pub fn recover(folder: &Path) -> io::Result<(File, u32)> {
    let lock = File::open(folder)?;
    system::lock(&lock).map_err(|error| match error.kind() {
        io::ErrorKind::WouldBlock => io::Error::new(error.kind(), "another daemon records there"),
        _ => error,
    })?;
    let mut last = 0;
    for entry in fs::read_dir(folder)? {
        let name = entry?.file_name().to_string_lossy().into_owned();
        let words: Vec<&str> = name.split('.').collect();
        let number = words[0].parse().ok().filter(|_| words[0].len() >= 6);
        last = last.max(number.unwrap_or(0));
        if let (Some(number), [_, end @ ("run" | "more"), "part"]) = (number, &words[..]) {
            let whole = file(folder, number, end);
            piece::recover(&whole)?;
            say(format!("{} was left growing, and is whole now", whole.display()));
        }
    }
    Ok((lock, last))
}

fn file(folder: &Path, number: u32, extension: &str) -> PathBuf {
    folder.join(format!("{number:06}.{extension}"))
}
