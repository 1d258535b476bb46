//! Why an event is refused.

use crate::codes::{self, coded};

coded! {
    /// Why an event is refused. A refused event changes nothing.
    ///
    /// Each has its number and name on Linux, and is written with both:
    ///
    /// ```
    /// use vairolent::Error;
    ///
    /// assert_eq!(Error::NoSlot.code(), 28);
    /// assert_eq!(Error::NoSlot.name(), "ENOSPC");
    /// assert_eq!(Error::NoSlot.to_string(), "ENOSPC (28): no slot is free");
    /// ```
    ///
    /// An operate that is judged, and not let through, has the [position](Error::position) of the
    /// operation that decided. What is refused before judging has none, nor has any other event.
    ///
    /// ```
    /// use vairolent::{Error, Host, Operation};
    ///
    /// let mut host = Host::new();
    /// let set = host.create(1, 2, 0o666)?;
    /// let operations = [Operation::new(0, 1), Operation::new(1, -1).nowait()];
    /// let error = host.operate(1, set, &operations).unwrap_err();
    /// assert_eq!(error, Error::WouldSleep { position: 1 });
    /// assert_eq!(
    ///     error.to_string(),
    ///     "EAGAIN (11) at operation 1: an operation would sleep, and may not"
    /// );
    /// let error = host.operate(9, set, &operations).unwrap_err();
    /// assert_eq!((error, error.position()), (Error::NoProcess, None));
    /// # Ok::<(), vairolent::Error>(())
    /// ```
    pub enum Error {
        /// ESRCH: the process is not 1 to 8.
        NoProcess = ESRCH,
        /// EBUSY: the process is asleep.
        ProcessAsleep = EBUSY,
        /// EINVAL: the identifier names no live set, or an argument is bad. A create's count is 0
        /// or over 8, or its mode over 0o777; an operate has no operations; the semaphore number of
        /// a set value or a query is at or above the set's count; the values of a set all are not as
        /// many as the set has semaphores.
        Invalid = EINVAL,
        /// E2BIG: over 32 operations.
        TooManyOperations = E2BIG,
        /// EFBIG: the semaphore number of an operation is at or above the set's count.
        NoSemaphore = EFBIG,
        /// EACCES: the set's mode does not permit the process to read, or to alter.
        NotPermitted = EACCES,
        /// EPERM: the process that removes a set is not of its owner, and not of user 0.
        NotOwner = EPERM,
        /// ENOSPC: no slot is free.
        NoSlot = ENOSPC,
        /// ERANGE: the value of a set value, or one of a set all, is not 0 to 32,767.
        BadValue = ERANGE_TO_SET,
        /// EINVAL: the time of a clock is below the last told, or above 2^63-1.
        BadTime = EINVAL_TO_TELL,
        /// EAGAIN: an operation would sleep, and has IPC_NOWAIT, or the call has a wait of 0.
        WouldSleep { position } = EAGAIN,
        /// ERANGE: by an operation a value would leave 0 to 32,767, or an adjustment -32,767 to
        /// 32,767.
        OutOfRange { position } = ERANGE,
    }
}

impl Error {
    /// Does the code refuse? Those of what is done and of a call that sleeps do not.
    pub(crate) fn check(code: i32, position: Option<usize>) -> Result<(), Error> {
        match position {
            None if code == codes::DONE.number => Ok(()),
            Some(_) if code == codes::ASLEEP.number => Ok(()),
            _ => Err(Error::with_code(code, position)),
        }
    }
}

impl std::error::Error for Error {}

#[cfg(test)]
mod tests {
    use super::*;

    #[test]
    fn what_is_done_or_asleep_is_not_refused() {
        assert_eq!(Error::check(0, None), Ok(()));
        assert_eq!(Error::check(-1, Some(7)), Ok(()));
    }

    #[test]
    fn one_code_with_a_position_and_without() {
        assert_eq!(Error::check(34, None), Err(Error::BadValue));
        assert_eq!(Error::check(34, Some(2)), Err(Error::OutOfRange { position: 2 }));
    }

    #[test]
    fn one_code_twice_without_a_position() {
        assert_eq!(Error::BadTime.code(), Error::Invalid.code());
        assert_eq!(Error::check(22, None), Err(Error::Invalid));
    }

    #[test]
    #[should_panic(expected = "no other: (-1, None)")]
    fn asleep_is_always_with_a_position() {
        let _ = Error::check(-1, None);
    }

    #[test]
    #[should_panic(expected = "no other: (22, Some(0))")]
    fn a_check_is_always_without() {
        let _ = Error::check(22, Some(0));
    }
}
