//! The loop: who connects, calls, ends. It waits for all of them at once, and does nothing else.

use std::collections::HashMap;
use std::fs::File;
use std::io;
use std::path::Path;

use crate::caller::{Caller, ProcessId, Role};
use crate::control::Control;
use crate::daemon::{ConnectionId, Daemon};
use crate::errno::{Errno, ENOSPC};
use crate::message::{Reply, Request, LONGEST};
use crate::operate::Call;
use crate::say::complain;
use crate::system::{Endings, Poll, ProcessHandle, Socket};

const LISTENER: u64 = 0;
const ENDINGS: u64 = 1;
const FIRST: u64 = 2;

/// Connections that one process may have, one for each of its threads.
const CONNECTIONS_MAX: usize = 256;

struct Connection {
    socket: Socket,
    caller: Caller,
}

struct Process {
    pid: i32,
    handle: ProcessHandle,
}

pub struct Server {
    daemon: Daemon,
    poll: Poll,
    listener: Socket,
    _endings: Endings,
    connections: HashMap<ConnectionId, Connection>,
    processes: HashMap<ProcessId, Process>,
    /// The next number for a connection or a process.
    next: u64,
    /// Given up for a moment where there are no descriptors left, to turn somebody away.
    reserve: Option<File>,
}

impl Server {
    pub fn new(daemon: Daemon, listener: Socket, endings: Endings) -> io::Result<Server> {
        let poll = Poll::new()?;
        poll.watch(&listener, LISTENER)?;
        poll.watch(&endings, ENDINGS)?;
        Ok(Server {
            daemon,
            poll,
            listener,
            _endings: endings,
            connections: HashMap::new(),
            processes: HashMap::new(),
            next: FIRST,
            reserve: reserve(),
        })
    }

    /// Serves until a signal ends it.
    pub fn serve(&mut self) -> io::Result<()> {
        loop {
            let ready = self.poll.wait(self.daemon.next_end())?;
            self.daemon.end_waits();
            for &token in ready.iter().filter(|&&token| token >= FIRST) {
                self.end(ProcessId(token));
            }
            self.send_answers();
            for &token in &ready {
                match token {
                    LISTENER => self.accept(),
                    ENDINGS => {}
                    _ => self.read(ConnectionId(token)),
                }
            }
            if ready.contains(&ENDINGS) {
                return self.daemon.engine.record().end();
            }
        }
    }

    fn number(&mut self) -> u64 {
        self.next += 1;
        self.next - 1
    }

    fn accept(&mut self) {
        let accepted = match self.listener.accept() {
            Ok(socket) => self.welcome(socket),
            Err(error) if error.kind() == io::ErrorKind::WouldBlock => Ok(()),
            Err(error) => {
                // Without a descriptor the caller would be offered again and again.
                self.reserve = None;
                let _ = self.listener.accept();
                self.reserve = reserve();
                Err(error)
            }
        };
        if let Err(error) = accepted {
            complain(format!("a connection is refused: {error}"));
        }
    }

    fn welcome(&mut self, socket: Socket) -> io::Result<()> {
        let [pid, user, group] = socket.peer()?;
        if pid <= 0 {
            return Err(refused("its process is of another pid namespace".to_string()));
        }
        let process = self.process(&socket, pid)?;
        let role = Role { user: user as u32, group: group as u32 };
        let caller = Caller { process, pid, role, groups: socket.peer_groups()?.into() };
        let its = self.connections.values().filter(|each| each.caller.process == process);
        if its.count() >= CONNECTIONS_MAX {
            return Err(refused(format!(
                "process {pid} has {CONNECTIONS_MAX} connections already"
            )));
        }
        let connection = self.number();
        self.poll.watch(&socket, connection)?;
        self.connections.insert(ConnectionId(connection), Connection { socket, caller });
        Ok(())
    }

    /// The process at the other end, which is watched from now on.
    fn process(&mut self, socket: &Socket, pid: i32) -> io::Result<ProcessId> {
        let handle = socket.peer_process(pid)?;
        let known = self.processes.iter().find(|(_, process)| process.pid == pid);
        if let Some((&process, known)) = known {
            if !known.handle.has_ended() {
                return Ok(process);
            }
            // The pid is that of a new process.
            self.end(process);
            self.send_answers();
        }
        let process = self.number();
        self.poll.watch(&handle, process)?;
        self.processes.insert(ProcessId(process), Process { pid, handle });
        Ok(ProcessId(process))
    }

    /// A process has ended: the calls that it left behind are dropped, then its exit is handed in.
    fn end(&mut self, process: ProcessId) {
        if self.processes.remove(&process).is_some() {
            self.connections.retain(|_, connection| connection.caller.process != process);
            self.daemon.exit(process);
        }
    }

    /// Who ended before a call was sent has exited before it is judged: a parent whose wait came back
    /// finds its child's undo done.
    fn end_holders(&mut self, caller: ProcessId) {
        let leases = &self.daemon.leases;
        let holders = leases.taken().filter_map(|number| leases.holder(number));
        let mut holders: Vec<ProcessId> = holders.filter(|&holder| holder != caller).collect();
        let handles = holders.iter().filter_map(|holder| self.processes.get(holder));
        let handles: Vec<&ProcessHandle> = handles.map(|process| &process.handle).collect();
        if handles.is_empty() || !ProcessHandle::some_ended(&handles) {
            return;
        }
        let ended = |holder: &ProcessId| {
            self.processes.get(holder).map_or(false, |process| process.handle.has_ended())
        };
        holders.retain(ended);
        holders.into_iter().for_each(|holder| self.end(holder));
    }

    /// Reads one packet, so that each connection has its turn.
    fn read(&mut self, id: ConnectionId) {
        let mut packet = [0; LONGEST + 1];
        let connection = match self.connections.get(&id) {
            Some(connection) => connection,
            None => return,
        };
        let caller = connection.caller.clone();
        let length = match connection.socket.receive(&mut packet) {
            Err(error) if error.kind() == io::ErrorKind::WouldBlock => return,
            Err(_) | Ok(0) => return self.close(id),
            Ok(length) => length,
        };
        let request = packet.get(..length).ok_or("a packet that is too long");
        match request.and_then(|packet| Request::read(packet)) {
            Ok(request) => self.answer(id, &caller, request),
            Err(words) => self.refuse(id, words),
        }
    }

    fn answer(&mut self, id: ConnectionId, caller: &Caller, request: Request) {
        self.daemon.end_waits();
        let sleeps = self.daemon.sleepers.iter().any(|sleeper| sleeper.connection == id);
        let reply = match request {
            Request::Cancel => {
                self.daemon.interrupt(id);
                None
            }
            _ if sleeps => {
                self.refuse(id, "a call while another sleeps");
                None
            }
            Request::Status => {
                let text = self.daemon.status(caller);
                Some(Reply::with(0, text.into_bytes()))
            }
            _ if self.daemon.engine.record().is_full() => Some(ENOSPC.into()),
            request => {
                self.end_holders(caller.process);
                self.call(id, caller, request)
            }
        };
        self.send_answers();
        if let Some(reply) = reply {
            self.send(id, &reply);
        }
    }

    /// The answer to a call, or nothing while it sleeps.
    fn call(
        &mut self,
        connection: ConnectionId,
        caller: &Caller,
        request: Request,
    ) -> Option<Reply> {
        let reply = match request {
            Request::Get { key, count, flags } => {
                self.daemon.get(caller, key, count, flags).map(Reply::of)
            }
            Request::Operate { identifier, wait, operations } => {
                let caller = caller.clone();
                let call = Call { caller, connection, identifier, wait, operations };
                return self.daemon.operate(call);
            }
            Request::Control { identifier, number, command, data } => {
                self.daemon.control(caller, &Control { identifier, number, command, data })
            }
            Request::Count { identifier, alter } => self.daemon.count(caller, identifier, alter),
            Request::Cancel | Request::Status => unreachable!("they are no calls"),
        };
        Some(reply.unwrap_or_else(|errno: Errno| errno.into()))
    }

    fn send_answers(&mut self) {
        for (connection, reply) in std::mem::take(&mut self.daemon.answers) {
            self.send(connection, &reply);
        }
    }

    fn send(&mut self, id: ConnectionId, reply: &Reply) {
        let sent =
            self.connections.get(&id).map(|connection| connection.socket.send(&reply.packet()));
        match sent {
            Some(Err(error)) if error.kind() == io::ErrorKind::WouldBlock => {
                self.refuse(id, "answers that it does not read");
            }
            Some(Err(_)) => self.close(id),
            _ => {}
        }
    }

    /// Closes a connection that breaks the rules, and says so.
    fn refuse(&mut self, id: ConnectionId, words: &str) {
        if let Some(connection) = self.connections.get(&id) {
            complain(format!(
                "process {}: {words}; its connection is closed",
                connection.caller.pid
            ));
            self.close(id);
        }
    }

    /// Nobody waits for answers there any more: a call that sleeps is interrupted. The process goes
    /// on, and keeps its adjustments.
    fn close(&mut self, id: ConnectionId) {
        let process = match self.connections.remove(&id) {
            Some(connection) => connection.caller.process,
            None => return,
        };
        self.daemon.interrupt(id);
        let its = |connection: &Connection| connection.caller.process == process;
        let holds = self.daemon.leases.of(process).next().is_some();
        if !holds && !self.connections.values().any(its) {
            self.processes.remove(&process);
            self.daemon.leases.forget(process);
        }
    }
}

fn refused(words: String) -> io::Error {
    io::Error::new(io::ErrorKind::Other, words)
}

fn reserve() -> Option<File> {
    File::open(Path::new("/dev/null")).ok()
}
