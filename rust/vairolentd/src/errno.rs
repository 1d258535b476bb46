//! The errors that the daemon gives of its own accord, by their numbers on Linux. All others are the
//! service's.

/// A number of errno.
#[derive(Clone, Copy, Debug, PartialEq, Eq)]
pub struct Errno(pub i32);

/// Nobody may change whose a set is, or its mode.
pub const EPERM: Errno = Errno(1);
/// No set has the key.
pub const ENOENT: Errno = Errno(2);
/// The set's mode does not let the caller.
pub const EACCES: Errno = Errno(13);
/// A set has the key already.
pub const EEXIST: Errno = Errno(17);
/// No such set or command, or data that do not fit.
pub const EINVAL: Errno = Errno(22);
/// No number, or no room to record in.
pub const ENOSPC: Errno = Errno(28);
/// The adjustments of a process together would leave their range.
pub const ERANGE: Errno = Errno(34);
