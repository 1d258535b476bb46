//! Replays a run file from standard input through this package, and writes the lines that the
//! proved program replay writes: the comparison holds the two to each other. Given files, replays
//! them as one run: each goes on from the host that the one before has left.

mod through;

use std::env;
use std::fs::File;
use std::io::{self, Read, Write};

use second::{RunFile, FILE_MAX};
use through::Handed;
use vairolent::Host;

fn main() -> io::Result<()> {
    let mut host = Host::new();
    let paths: Vec<String> = env::args().skip(1).collect();
    if paths.is_empty() {
        return write_listing(&mut host, io::stdin());
    }
    paths.iter().try_for_each(|path| write_listing(&mut host, File::open(path)?))
}

fn write_listing(host: &mut Host, from: impl Read) -> io::Result<()> {
    let mut file = Vec::new();
    // By one byte more than the longest a longer one is noticed.
    from.take(FILE_MAX as u64 + 1).read_to_end(&mut file)?;
    let mut text = String::new();
    match RunFile::read(&file) {
        Err(bad) => text += &format!("bad {}\n", bad as i32),
        Ok(run) => {
            text += &format!("events {}\n", run.len());
            for (position, handed) in run.events().map(Handed::from).enumerate() {
                let told = through::run(host, &handed);
                text += &format!("{position} {}\n", handed.event().line(&told));
            }
        }
    }
    io::stdout().write_all(text.as_bytes())
}
