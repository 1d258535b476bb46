//! The codes, with their numbers on Linux.

/// Why an event is refused, or a sleeper ended.
#[derive(Clone, Copy, Debug, PartialEq, Eq)]
#[repr(u8)]
pub enum Errno {
    Eperm = 1,
    Esrch = 3,
    Eintr = 4,
    E2big = 7,
    Eagain = 11,
    Eacces = 13,
    Ebusy = 16,
    Einval = 22,
    Efbig = 27,
    Enospc = 28,
    Erange = 34,
    Eidrm = 43,
}

impl Errno {
    pub fn number(self) -> u8 {
        self as u8
    }
}
