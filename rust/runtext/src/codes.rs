//! The codes by name, and what each means where it is met.

/// `done (0)`, `asleep (-1)` or a name such as `EAGAIN (11)`.
pub fn name(code: i32) -> String {
    let name = match code {
        -1 => "asleep",
        0 => "done",
        1 => "EPERM",
        3 => "ESRCH",
        4 => "EINTR",
        7 => "E2BIG",
        11 => "EAGAIN",
        13 => "EACCES",
        16 => "EBUSY",
        22 => "EINVAL",
        27 => "EFBIG",
        28 => "ENOSPC",
        34 => "ERANGE",
        43 => "EIDRM",
        _ => "a code without a name",
    };
    format!("{name} ({code})")
}

pub const OUT_OF_RANGE: &str = "a value or an undo adjustment would go out of its range";

pub const GAVE_UP: &str = "gave up waiting";

/// Why a sleeper is ended with this code. The position is that of the operation that decided: none
/// does where a wait is over.
pub fn why_ended(code: i32, position: Option<usize>) -> Option<&'static str> {
    Some(match code {
        4 => "by the signal",
        11 if position.is_none() => GAVE_UP,
        11 => "it stops now where nowait is given",
        34 => OUT_OF_RANGE,
        43 => "its set is removed",
        _ => return None,
    })
}

/// Why a file is refused.
pub fn why_bad(code: u16) -> &'static str {
    match code {
        201 => "it is over 65535 bytes, or its head or table is cut off",
        202 => "its offsets or its end are not as the table says",
        203 => "a body has an unknown kind",
        204 => "a body is empty, or has the wrong length for its kind",
        _ => "a code without a name",
    }
}
