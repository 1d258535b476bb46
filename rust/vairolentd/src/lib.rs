//! vairolentd: serves semget, semop, semtimedop and semctl to local programs, by the proved service.
//!
//! Programs that run with the preload library send each call as a packet over a Unix socket. The
//! daemon hands it to the one host that it holds, as one of the service's events, and answers; a call
//! that sleeps is answered when an event ends it. What the rules say is the service's, libvairolent's.
//! What Linux has beside them is the daemon's: keys (`get`), times and last pids (`sets`), real pids,
//! which of the service's eight numbers stands for which process (`leases`, `accounts`) and acts as
//! whom (`call`), the end of a process (`exits`), time (`clock`). Every event is recorded (`record`), so
//! that the proved program replay gives its answers once more.
//!
//! Data goes one way: packet, request (`message`), event (`get`, `operate`, `control`, `exits`), host
//! and recording (`engine`), answer. One thread does it all (`server`).

mod accounts;
pub mod arguments;
mod beginning;
mod call;
mod caller;
mod clock;
mod control;
mod daemon;
mod engine;
mod errno;
mod exits;
mod get;
mod known;
mod leases;
pub mod message;
mod operate;
mod piece;
mod record;
mod say;
mod seen;
mod server;
mod sets;
mod status;
pub mod system;
#[cfg(test)]
mod trial;

use std::fs::{self, Permissions};
use std::io::{self, Write};
use std::os::unix::fs::{FileTypeExt, PermissionsExt};
use std::path::Path;

use daemon::Daemon;
use message::{Reply, Request};
use record::Record;
use server::Server;
use system::{Endings, Socket};

pub use record::recover;
pub use say::say;

/// Serves at a socket until a signal ends it, and records in a folder.
pub fn serve(socket: &Path, folder: &Path, mode: u32, with_lines: bool) -> io::Result<()> {
    let at = |path: &Path, error: io::Error| {
        io::Error::new(error.kind(), format!("{}: {error}", path.display()))
    };
    let endings = Endings::new()?;
    system::raise_descriptors();
    let listener = listen(socket, mode).map_err(|error| at(socket, error))?;
    let record = Record::begin(folder, with_lines).map_err(|error| at(folder, error));
    let served = record.and_then(|record| {
        let mut server = Server::new(Daemon::new(record), listener, endings)?;
        say(format!("serving at {}, recording in {}", socket.display(), folder.display()));
        server.serve()
    });
    fs::remove_file(socket)?;
    served
}

/// Listens where nobody listens; what an ended daemon left there is replaced. Who sees the socket can
/// connect to it, and it has its mode.
fn listen(path: &Path, mode: u32) -> io::Result<Socket> {
    let in_use = |words| Err(io::Error::new(io::ErrorKind::AddrInUse, words));
    let is_left = |error: io::Error| error.kind() == io::ErrorKind::ConnectionRefused;
    match fs::symlink_metadata(path) {
        Ok(there) if !there.file_type().is_socket() => return in_use("it is no socket"),
        Ok(_) if !Socket::connect(path).err().map_or(false, is_left) => {
            return in_use("somebody serves there");
        }
        _ => {}
    }
    let mut new = path.as_os_str().to_owned();
    new.push(format!(".{}", std::process::id()));
    let new = Path::new(&new);
    let socket = Socket::listen(new)?;
    fs::set_permissions(new, Permissions::from_mode(mode))?;
    fs::rename(new, path)?;
    Ok(socket)
}

/// Asks a daemon for its state, and writes it.
pub fn ask_status(path: &Path) -> io::Result<()> {
    let no_daemon = |error| {
        io::Error::new(io::ErrorKind::NotFound, format!("no daemon at {}: {error}", path.display()))
    };
    let socket = Socket::connect(path).map_err(no_daemon)?;
    socket.send(&Request::status_packet())?;
    let mut packet = vec![0; 65_536];
    let length = socket.receive(&mut packet)?;
    let text = packet.get(Reply::HEAD..length).ok_or(io::ErrorKind::UnexpectedEof)?;
    io::stdout().write_all(text)
}
