//! What std lacks of the C library, each with a safe face.

use std::ffi::c_void;
use std::fs::{self, File, OpenOptions};
use std::io;
use std::mem::size_of;
use std::os::unix::io::{AsRawFd, FromRawFd, OwnedFd};
use std::path::Path;
use std::ptr;
use std::sync::atomic::{compiler_fence, Ordering};
use std::time::Duration;

#[repr(C)]
struct Address {
    family: u16,
    path: [u8; 108],
}

#[repr(C, packed)]
#[derive(Clone, Copy)]
struct Ready {
    events: u32,
    token: u64,
}

#[repr(C)]
struct Polled {
    descriptor: i32,
    events: i16,
    seen: i16,
}

#[repr(C)]
struct Limit {
    soft: u64,
    hard: u64,
}

type Signals = [u64; 16];

extern "C" {
    fn socket(domain: i32, kind: i32, protocol: i32) -> i32;
    fn bind(socket: i32, address: *const Address, length: u32) -> i32;
    fn connect(socket: i32, address: *const Address, length: u32) -> i32;
    fn listen(socket: i32, backlog: i32) -> i32;
    fn accept4(socket: i32, address: *mut c_void, length: *mut u32, flags: i32) -> i32;
    fn recv(socket: i32, buffer: *mut u8, length: usize, flags: i32) -> isize;
    fn send(socket: i32, buffer: *const u8, length: usize, flags: i32) -> isize;
    fn getsockopt(socket: i32, level: i32, name: i32, value: *mut i32, length: *mut u32) -> i32;
    fn epoll_create1(flags: i32) -> i32;
    fn epoll_ctl(epoll: i32, operation: i32, descriptor: i32, ready: *mut Ready) -> i32;
    fn epoll_wait(epoll: i32, ready: *mut Ready, most: i32, milliseconds: i32) -> i32;
    fn poll(polled: *mut Polled, count: u64, milliseconds: i32) -> i32;
    fn syscall(number: i64, ...) -> i64;
    fn flock(descriptor: i32, operation: i32) -> i32;
    fn posix_fallocate(descriptor: i32, offset: i64, length: i64) -> i32;
    fn mmap(
        address: *mut c_void,
        length: usize,
        protection: i32,
        flags: i32,
        descriptor: i32,
        offset: i64,
    ) -> *mut c_void;
    fn munmap(address: *mut c_void, length: usize) -> i32;
    fn umask(mask: u32) -> u32;
    fn sigemptyset(signals: *mut Signals) -> i32;
    fn sigaddset(signals: *mut Signals, signal: i32) -> i32;
    fn sigprocmask(how: i32, signals: *const Signals, before: *mut Signals) -> i32;
    fn signalfd(descriptor: i32, signals: *const Signals, flags: i32) -> i32;
    fn getrlimit(resource: i32, limit: *mut Limit) -> i32;
    fn setrlimit(resource: i32, limit: *const Limit) -> i32;
}

const UNIX: i32 = 1;
const SEQPACKET: i32 = 5;
const NONBLOCK: i32 = 0o4000;
const CLOSE_ON_EXEC: i32 = 0o2000000;
const READABLE: u32 = 1;

/// A result of the C library: below 0 is an error.
fn checked(result: i32) -> io::Result<i32> {
    if result < 0 {
        Err(io::Error::last_os_error())
    } else {
        Ok(result)
    }
}

fn owned(descriptor: i32) -> io::Result<OwnedFd> {
    // SAFETY: the system has just given it, and to nobody else.
    checked(descriptor).map(|descriptor| unsafe { OwnedFd::from_raw_fd(descriptor) })
}

fn address(path: &Path) -> io::Result<Address> {
    use std::os::unix::ffi::OsStrExt;
    let bytes = path.as_os_str().as_bytes();
    let mut address = Address { family: UNIX as u16, path: [0; 108] };
    if bytes.is_empty() || bytes.len() >= address.path.len() || bytes.contains(&0) {
        let words = "a socket's path has 1 to 107 bytes";
        return Err(io::Error::new(io::ErrorKind::InvalidInput, words));
    }
    address.path[..bytes.len()].copy_from_slice(bytes);
    Ok(address)
}

/// A socket of whole packets.
pub struct Socket(OwnedFd);

impl Socket {
    /// One that listens at a path, which for this moment only the own user may use.
    pub fn listen(path: &Path) -> io::Result<Socket> {
        let address = address(path)?;
        // SAFETY: the address is whole and lives; umask has no premise.
        unsafe {
            let socket = owned(socket(UNIX, SEQPACKET | NONBLOCK | CLOSE_ON_EXEC, 0))?;
            let mask = umask(0o177);
            let bound = bind(socket.as_raw_fd(), &address, size_of::<Address>() as u32);
            umask(mask);
            checked(bound)?;
            checked(listen(socket.as_raw_fd(), 4096))?;
            Ok(Socket(socket))
        }
    }

    /// One that is connected to a path.
    pub fn connect(path: &Path) -> io::Result<Socket> {
        let address = address(path)?;
        // SAFETY: the address is whole and lives.
        unsafe {
            let socket = owned(socket(UNIX, SEQPACKET | CLOSE_ON_EXEC, 0))?;
            checked(connect(socket.as_raw_fd(), &address, size_of::<Address>() as u32))?;
            Ok(Socket(socket))
        }
    }

    pub fn accept(&self) -> io::Result<Socket> {
        let flags = NONBLOCK | CLOSE_ON_EXEC;
        // SAFETY: no address is asked for.
        let socket =
            unsafe { accept4(self.0.as_raw_fd(), ptr::null_mut(), ptr::null_mut(), flags) };
        owned(socket).map(Socket)
    }

    /// The next packet's length, and as much of it as there is room for. 0: the other end is closed.
    pub fn receive(&self, buffer: &mut [u8]) -> io::Result<usize> {
        const TRUNCATED: i32 = 0x20;
        // SAFETY: the buffer is as long as it says.
        let length =
            unsafe { recv(self.0.as_raw_fd(), buffer.as_mut_ptr(), buffer.len(), TRUNCATED) };
        usize::try_from(length).map_err(|_| io::Error::last_os_error())
    }

    /// Sends a packet, or fails at once where there is no room for it.
    pub fn send(&self, packet: &[u8]) -> io::Result<()> {
        const AT_ONCE_WITHOUT_SIGNAL: i32 = 0x40 | 0x4000;
        let (start, length) = (packet.as_ptr(), packet.len());
        // SAFETY: the packet is as long as it says.
        let sent = unsafe { send(self.0.as_raw_fd(), start, length, AT_ONCE_WITHOUT_SIGNAL) };
        checked(sent as i32).map(|_| ())
    }

    /// An option of the socket layer: so many words.
    fn option<const WORDS: usize>(&self, name: i32) -> io::Result<[i32; WORDS]> {
        let mut value = [0; WORDS];
        let mut length = (4 * WORDS) as u32;
        // SAFETY: the value is as long as it says.
        let result =
            unsafe { getsockopt(self.0.as_raw_fd(), 1, name, value.as_mut_ptr(), &mut length) };
        checked(result).map(|_| value)
    }

    /// Pid, user and group of the other end, as they were when it connected.
    pub fn peer(&self) -> io::Result<[i32; 3]> {
        self.option(17)
    }

    /// The groups that the other end was in besides its own.
    pub fn peer_groups(&self) -> io::Result<Vec<u32>> {
        const GROUPS_MAX: usize = 65_536;
        let mut groups: Vec<u32> = Vec::new();
        let mut length = 0;
        // SAFETY: the first asks for the length alone, and the second has as much room as it says.
        unsafe {
            let descriptor = self.0.as_raw_fd();
            if getsockopt(descriptor, 1, 59, ptr::null_mut(), &mut length) < 0 {
                groups.resize((length as usize / 4).min(GROUPS_MAX), 0);
                let start = groups.as_mut_ptr().cast();
                checked(getsockopt(descriptor, 1, 59, start, &mut length))?;
            }
        }
        Ok(groups)
    }

    /// The process at the other end; where the kernel cannot tell it by the socket, by its pid.
    pub fn peer_process(&self, pid: i32) -> io::Result<ProcessHandle> {
        const NO_SUCH_OPTION: i32 = 92;
        match self.option::<1>(77) {
            Ok([descriptor]) => owned(descriptor).map(ProcessHandle),
            Err(error) if error.raw_os_error() == Some(NO_SUCH_OPTION) => ProcessHandle::of(pid),
            Err(error) => Err(error),
        }
    }
}

/// A process, by a descriptor that becomes readable when it ends.
pub struct ProcessHandle(OwnedFd);

impl ProcessHandle {
    fn of(pid: i32) -> io::Result<ProcessHandle> {
        const PIDFD_OPEN: i64 = 434;
        // SAFETY: it takes two numbers.
        owned(unsafe { syscall(PIDFD_OPEN, pid, 0) } as i32).map(ProcessHandle)
    }

    pub fn has_ended(&self) -> bool {
        ProcessHandle::some_ended(&[self])
    }

    /// Has one of them ended?
    pub fn some_ended(handles: &[&ProcessHandle]) -> bool {
        let polled = |handle: &&ProcessHandle| {
            let descriptor = handle.0.as_raw_fd();
            Polled { descriptor, events: READABLE as i16, seen: 0 }
        };
        let mut polled: Vec<Polled> = handles.iter().map(polled).collect();
        // SAFETY: there are as many, and they live.
        unsafe { poll(polled.as_mut_ptr(), polled.len() as u64, 0) > 0 }
    }
}

/// SIGINT, SIGTERM and SIGHUP as a descriptor.
pub struct Endings(OwnedFd);

impl Endings {
    /// From now on they end nothing by themselves. A file that may not grow is an error, and no
    /// signal either.
    pub fn new() -> io::Result<Endings> {
        const BLOCK: i32 = 0;
        const FILE_TOO_LARGE: i32 = 25;
        let mut signals: Signals = [0; 16];
        // SAFETY: the set is as large as the C library's, and lives.
        unsafe {
            sigemptyset(&mut signals);
            for signal in [1, 2, 15] {
                sigaddset(&mut signals, signal);
            }
            let endings = owned(signalfd(-1, &signals, NONBLOCK | CLOSE_ON_EXEC))?;
            sigaddset(&mut signals, FILE_TOO_LARGE);
            checked(sigprocmask(BLOCK, &signals, ptr::null_mut()))?;
            Ok(Endings(endings))
        }
    }
}

/// What can become readable.
pub trait Readable {
    fn descriptor(&self) -> i32;
}

impl Readable for Socket {
    fn descriptor(&self) -> i32 {
        self.0.as_raw_fd()
    }
}

impl Readable for ProcessHandle {
    fn descriptor(&self) -> i32 {
        self.0.as_raw_fd()
    }
}

impl Readable for Endings {
    fn descriptor(&self) -> i32 {
        self.0.as_raw_fd()
    }
}

/// How many are told at once.
const MOST: usize = 256;

/// Tells which of many are readable.
pub struct Poll {
    descriptor: OwnedFd,
    ready: [Ready; MOST],
}

impl Poll {
    pub fn new() -> io::Result<Poll> {
        // SAFETY: it takes a number.
        let descriptor = owned(unsafe { epoll_create1(CLOSE_ON_EXEC) })?;
        Ok(Poll { descriptor, ready: [Ready { events: 0, token: 0 }; MOST] })
    }

    /// Watches one, by a token, until it is closed.
    pub fn watch(&self, readable: &impl Readable, token: u64) -> io::Result<()> {
        const ADD: i32 = 1;
        let mut ready = Ready { events: READABLE, token };
        // SAFETY: the event lives.
        let result = unsafe {
            epoll_ctl(self.descriptor.as_raw_fd(), ADD, readable.descriptor(), &mut ready)
        };
        checked(result).map(|_| ())
    }

    /// The tokens of those that are readable, once there are some or the time is over.
    pub fn wait(&mut self, time: Option<Duration>) -> io::Result<Vec<u64>> {
        let up = |time: Duration| (time.as_nanos() + 999_999) / 1_000_000;
        let milliseconds = time.map_or(-1, |time| i32::try_from(up(time)).unwrap_or(i32::MAX));
        let (descriptor, start) = (self.descriptor.as_raw_fd(), self.ready.as_mut_ptr());
        // SAFETY: the list is as long as it says.
        match checked(unsafe { epoll_wait(descriptor, start, MOST as i32, milliseconds) }) {
            Err(error) if error.kind() == io::ErrorKind::Interrupted => Ok(Vec::new()),
            Err(error) => Err(error),
            Ok(count) => Ok(self.ready[..count as usize].iter().map(|ready| ready.token).collect()),
        }
    }
}

/// A file that lies in memory, with all its room on the disk from the beginning: what is put into it
/// outlives this process, however that ends, and no call of the system is needed for it.
pub struct Mapped {
    start: *mut u8,
    length: usize,
}

impl Mapped {
    /// Makes the file, of zeros.
    pub fn create(path: &Path, length: usize) -> io::Result<Mapped> {
        const READ_WRITE: i32 = 1 | 2;
        const SHARED: i32 = 1;
        let mut options = OpenOptions::new();
        let file = options.create_new(true).read(true).write(true).open(path)?;
        let descriptor = file.as_raw_fd();
        // SAFETY: it takes numbers.
        let error = unsafe { posix_fallocate(descriptor, 0, length as i64) };
        let mapped = match error {
            // SAFETY: the system chooses where, and the file is as long.
            0 => unsafe { mmap(ptr::null_mut(), length, READ_WRITE, SHARED, descriptor, 0) },
            _ => usize::MAX as *mut c_void,
        };
        if mapped as usize == usize::MAX {
            let error = match error {
                0 => io::Error::last_os_error(),
                _ => io::Error::from_raw_os_error(error),
            };
            let _ = fs::remove_file(path);
            return Err(error);
        }
        Ok(Mapped { start: mapped.cast(), length })
    }

    /// Puts bytes at a place; the first two come last, so that they stand for all of them.
    pub fn put(&mut self, at: usize, bytes: &[u8]) {
        assert!(at + bytes.len() <= self.length && bytes.len() >= 2, "the file has no room for it");
        // SAFETY: the place is within the memory, which is this file's alone.
        unsafe {
            let place = self.start.add(at);
            ptr::copy_nonoverlapping(bytes[2..].as_ptr(), place.add(2), bytes.len() - 2);
            compiler_fence(Ordering::SeqCst);
            place.cast::<[u8; 2]>().write_volatile([bytes[0], bytes[1]]);
        }
    }
}

impl Drop for Mapped {
    fn drop(&mut self) {
        // SAFETY: it is this memory, and nothing of it is used any more.
        unsafe { munmap(self.start.cast(), self.length) };
    }
}

/// Locks a file until it is closed; fails at once where another has it.
pub fn lock(file: &File) -> io::Result<()> {
    const ALONE_AT_ONCE: i32 = 2 | 4;
    // SAFETY: it takes two numbers.
    checked(unsafe { flock(file.as_raw_fd(), ALONE_AT_ONCE) }).map(|_| ())
}

/// Lets the process have as many descriptors as it may.
pub fn raise_descriptors() {
    const DESCRIPTORS: i32 = 7;
    let mut limit = Limit { soft: 0, hard: 0 };
    // SAFETY: the limit lives.
    unsafe {
        if getrlimit(DESCRIPTORS, &mut limit) == 0 {
            limit.soft = limit.hard;
            setrlimit(DESCRIPTORS, &limit);
        }
    }
}

#[cfg(test)]
mod tests {
    use super::*;
    use std::process::Command;

    /// The way of kernels that cannot tell a process by its socket.
    #[test]
    fn the_end_of_a_process_is_told_by_its_pid() {
        let mut child = Command::new("sleep").arg("60").spawn().expect("started");
        let pid = child.id() as i32;
        let handle = ProcessHandle::of(pid).expect("it lives");
        let own = ProcessHandle::of(std::process::id() as i32).expect("it lives");
        assert!(!handle.has_ended() && !ProcessHandle::some_ended(&[&own, &handle]));
        child.kill().expect("killed");
        child.wait().expect("reaped");
        assert!(handle.has_ended() && ProcessHandle::some_ended(&[&own, &handle]));
        assert!(!own.has_ended());
        assert!(ProcessHandle::of(pid).is_err(), "it is gone");
    }

    #[test]
    fn a_path_has_to_fit() {
        assert!(address(Path::new("")).is_err());
        assert!(address(Path::new(&"a".repeat(107))).is_ok());
        assert!(address(Path::new(&"a".repeat(108))).is_err());
    }
}
