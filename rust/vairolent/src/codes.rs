//! The codes: number, name and words of each. Refusals and endings take theirs from here.

use std::fmt;

/// A code of the service, with its number on Linux.
pub struct Code {
    pub number: i32,
    pub name: &'static str,
    /// Empty where the name says it all.
    pub words: &'static str,
}

const fn code(number: i32, name: &'static str, words: &'static str) -> Code {
    Code { number, name, words }
}

pub const ASLEEP: Code = code(-1, "asleep", "");
pub const DONE: Code = code(0, "done", "");
pub const EPERM: Code = code(1, "EPERM", "the set is another user's");
pub const ESRCH: Code = code(3, "ESRCH", "no such process");
pub const EINTR: Code = code(4, "EINTR", "a signal interrupted it");
pub const E2BIG: Code = code(7, "E2BIG", "too many operations");
/// Of an operation.
pub const EAGAIN: Code = code(11, "EAGAIN", "an operation would sleep, and may not");
/// Of a wait.
pub const EAGAIN_BY_CLOCK: Code = code(11, "EAGAIN", "its wait is over");
pub const EACCES: Code = code(13, "EACCES", "the set's mode does not permit it");
pub const EBUSY: Code = code(16, "EBUSY", "the process is asleep");
pub const EINVAL: Code = code(22, "EINVAL", "no such set, or a bad argument");
/// Of a time to tell.
pub const EINVAL_TO_TELL: Code = code(22, "EINVAL", "a time is below the last, or above 2^63-1");
pub const EFBIG: Code = code(27, "EFBIG", "a semaphore number is at or above the set's count");
pub const ENOSPC: Code = code(28, "ENOSPC", "no slot is free");
/// Of an operation.
pub const ERANGE: Code = code(34, "ERANGE", "a value or an adjustment would leave its range");
/// Of a value to set.
pub const ERANGE_TO_SET: Code = code(34, "ERANGE", "a value to set is not 0 to 32,767");
pub const EIDRM: Code = code(43, "EIDRM", "its set was removed");

impl Code {
    /// As in `ENOSPC (28): no slot is free`; with the position of the operation that decided, as in
    /// `asleep (-1) at operation 0`.
    pub fn write(&self, position: Option<usize>, f: &mut fmt::Formatter) -> fmt::Result {
        write!(f, "{} ({})", self.name, self.number)?;
        if let Some(position) = position {
            write!(f, " at operation {position}")?;
        }
        if self.words.is_empty() {
            return Ok(());
        }
        write!(f, ": {}", self.words)
    }
}

/// An enum in which each variant stands for a code, with a position where an operation decided. A
/// code may stand once with a position and once without. Where it stands twice alike it means the
/// first; the event that means the other says so.
macro_rules! coded {
    (
        $(#[$about:meta])*
        pub enum $name:ident {
            $($(#[$says:meta])* $variant:ident $({ $position:ident })? = $code:ident,)*
        }
    ) => {
        $(#[$about])*
        #[derive(Clone, Copy, Debug, PartialEq, Eq, Hash)]
        pub enum $name {
            $(
                $(#[$says])*
                $variant $({
                    /// Which operation decided, from 0.
                    $position: usize,
                })?,
            )*
        }

        impl $name {
            /// Its number.
            pub fn code(self) -> i32 {
                self.row().number
            }

            /// Its name.
            pub fn name(self) -> &'static str {
                self.row().name
            }

            /// Which operation decided, by its position from 0; nothing where none did.
            pub fn position(self) -> Option<usize> {
                match self {
                    $($name::$variant $({ $position })? => $crate::codes::place!($($position)?),)*
                }
            }

            fn row(self) -> $crate::codes::Code {
                match self {
                    $($name::$variant { .. } => $crate::codes::$code,)*
                }
            }

            /// The one with this code, and with this position or none.
            pub(crate) fn with_code(code: i32, position: Option<usize>) -> $name {
                match (code, position) {
                    $((number, $crate::codes::place!($($position)?))
                        if number == $crate::codes::$code.number =>
                    {
                        $name::$variant $({ $position })?
                    })*
                    other => unreachable!("the service is proved to give no other: {:?}", other),
                }
            }
        }

        impl std::fmt::Display for $name {
            fn fmt(&self, f: &mut std::fmt::Formatter) -> std::fmt::Result {
                self.row().write(self.position(), f)
            }
        }
    };
}

/// The position that a variant has, or none: as a value, and as a pattern.
macro_rules! place {
    () => {
        None
    };
    ($position:ident) => {
        Some($position)
    };
}

pub(crate) use {coded, place};
