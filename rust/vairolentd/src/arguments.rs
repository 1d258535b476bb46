//! What the program is asked to do.

use std::env;
use std::ffi::OsString;
use std::path::PathBuf;

pub const USAGE: &str = "\
usage: vairolentd --socket PATH --record FOLDER [--mode OCTAL] [--answers]
       vairolentd --status [--socket PATH]
       vairolentd --recover FOLDER
Serves System V semaphores, by the proved service, to local programs that run with
libvairolent-preload.so; tools/with-vairolent starts both.
  --socket PATH    where it listens, and with --status, which daemon is asked; else VAIROLENT_SOCKET
  --record FOLDER  where every event is recorded: 000001.run and on, for replay
  --mode OCTAL     who may connect: the mode of the socket, 600 unless given
  --answers        writes beside each run file the lines of its answers, for a comparison with replay
  --status         lists sets, semaphores and sleepers as ipcs -s does
  --recover FOLDER makes whole what a killed daemon left there; serving does that first, too
It ends with SIGTERM, SIGINT or SIGHUP, and makes its last run file whole.";

#[derive(Debug, PartialEq, Eq)]
pub enum Arguments {
    Serve { socket: PathBuf, folder: PathBuf, mode: u32, with_lines: bool },
    Status { socket: PathBuf },
    Recover { folder: PathBuf },
    Help,
}

impl Arguments {
    pub fn read() -> Result<Arguments, String> {
        let socket = env::var_os("VAIROLENT_SOCKET").map(PathBuf::from);
        Arguments::of(env::args_os().skip(1), socket)
    }

    fn of(
        mut words: impl Iterator<Item = OsString>,
        mut socket: Option<PathBuf>,
    ) -> Result<Arguments, String> {
        let (mut folder, mut mode, mut with_lines, mut status) = (None, 0o600, false, false);
        while let Some(word) = words.next() {
            let name = word.to_string_lossy().into_owned();
            let mut value = || words.next().ok_or(format!("{name} wants a value"));
            match &name[..] {
                "--socket" => socket = Some(value()?.into()),
                "--record" => folder = Some(PathBuf::from(value()?)),
                "--mode" => mode = read_mode(&value()?.to_string_lossy())?,
                "--answers" => with_lines = true,
                "--status" => status = true,
                "--recover" => return Ok(Arguments::Recover { folder: value()?.into() }),
                "--help" => return Ok(Arguments::Help),
                _ => return Err(format!("there is no {name}")),
            }
        }
        let socket = socket.ok_or("no socket: give --socket PATH, or set VAIROLENT_SOCKET")?;
        match folder {
            None if status => Ok(Arguments::Status { socket }),
            Some(folder) if !status => Ok(Arguments::Serve { socket, folder, mode, with_lines }),
            _ => Err("give --record FOLDER to serve, or --status to ask".into()),
        }
    }
}

fn read_mode(word: &str) -> Result<u32, String> {
    let mode = u32::from_str_radix(word, 8).ok().filter(|&mode| mode <= 0o777);
    mode.ok_or(format!("a mode has up to three digits, 0 to 7 each, not {word}"))
}

#[cfg(test)]
mod tests {
    use super::*;

    fn of(words: &str) -> Result<Arguments, String> {
        Arguments::of(words.split_whitespace().map(OsString::from), None)
    }

    #[test]
    fn what_is_asked() {
        let serve = |mode, with_lines| {
            let (socket, folder) = ("s".into(), "r".into());
            Ok(Arguments::Serve { socket, folder, mode, with_lines })
        };
        assert_eq!(of("--socket s --record r"), serve(0o600, false));
        assert_eq!(of("--record r --mode 666 --answers --socket s"), serve(0o666, true));
        assert_eq!(of("--status --socket s"), Ok(Arguments::Status { socket: "s".into() }));
        assert_eq!(of("--recover r"), Ok(Arguments::Recover { folder: "r".into() }));
        assert_eq!(of("--help"), Ok(Arguments::Help));
    }

    #[test]
    fn what_is_wrong() {
        for (words, wanted) in [
            ("", "no socket: give --socket PATH, or set VAIROLENT_SOCKET"),
            ("--socket", "--socket wants a value"),
            ("--socket s", "give --record FOLDER to serve, or --status to ask"),
            ("--socket s --record r --status", "give --record FOLDER to serve, or --status to ask"),
            ("--mode 888", "a mode has up to three digits, 0 to 7 each, not 888"),
            ("--mode 1777", "a mode has up to three digits, 0 to 7 each, not 1777"),
            ("--polling", "there is no --polling"),
        ] {
            assert_eq!(of(words), Err(wanted.to_string()));
        }
    }
}
