//! Which process has which of the service's numbers. One has a number only while it sleeps or holds
//! adjustments; threads that sleep at once have one each. Who comes back gets the number it had, if
//! nobody has it now, so that a recording is easy to read.

use vairolent::PROCESSES;

use crate::caller::ProcessId;

/// The number that no process keeps, so that somebody can always wake the others.
pub const SPARE: u8 = PROCESSES as u8;

/// By the numbers from 1 on.
#[derive(Default)]
pub struct Leases {
    holders: [Option<ProcessId>; PROCESSES - 1],
    /// Who used a number last, of those that live.
    users: [Option<ProcessId>; PROCESSES - 1],
}

impl Leases {
    /// Who has a number?
    pub fn holder(&self, number: u8) -> Option<ProcessId> {
        *self.holders.get(usize::from(number).checked_sub(1)?)?
    }

    /// The number for a call: the first that the process has and that is awake; else one that nobody
    /// has, its own of before, or nobody's, or any; else the spare one.
    pub fn choose(&mut self, process: ProcessId, asleep: impl Fn(u8) -> bool) -> u8 {
        let own = self.of(process).find(|&number| !asleep(number));
        let user = |number: u8| self.users[usize::from(number) - 1];
        let free = |who: &dyn Fn(Option<ProcessId>) -> bool| {
            (1..SPARE).find(|&number| self.holder(number).is_none() && who(user(number)))
        };
        let free = free(&|user| user == Some(process))
            .or_else(|| free(&|user| user.is_none()))
            .or_else(|| free(&|_| true));
        let number = own.or(free).unwrap_or(SPARE);
        if number != SPARE {
            self.users[usize::from(number) - 1] = Some(process);
        }
        number
    }

    /// The process does not come back.
    pub fn forget(&mut self, process: ProcessId) {
        self.users.iter_mut().filter(|user| **user == Some(process)).for_each(|user| *user = None);
    }

    /// The process has the number from now on. The spare one is nobody's.
    pub fn take(&mut self, number: u8, process: ProcessId) {
        assert!(number != SPARE, "the spare number is kept by nobody");
        self.holders[usize::from(number) - 1] = Some(process);
    }

    pub fn free(&mut self, number: u8) {
        if number != SPARE {
            self.holders[usize::from(number) - 1] = None;
        }
    }

    /// The numbers of a process.
    pub fn of(&self, process: ProcessId) -> impl Iterator<Item = u8> + '_ {
        self.taken().filter(move |&number| self.holder(number) == Some(process))
    }

    /// The numbers that somebody has.
    pub fn taken(&self) -> impl Iterator<Item = u8> + '_ {
        (1..SPARE).filter(move |&number| self.holder(number).is_some())
    }
}

#[cfg(test)]
mod tests {
    use super::*;

    const A: ProcessId = ProcessId(11);
    const B: ProcessId = ProcessId(12);

    #[test]
    fn one_number_stays_spare() {
        let mut leases = Leases::default();
        for number in 1..SPARE {
            assert_eq!(leases.choose(A, |_| true), number);
            leases.take(number, A);
        }
        assert_eq!(leases.choose(A, |_| true), SPARE);
        assert_eq!(leases.choose(B, |_| false), SPARE);
        assert_eq!(leases.choose(A, |number| number != 5), 5);
        leases.free(3);
        leases.free(SPARE);
        assert_eq!(leases.choose(B, |_| false), 3);
        assert_eq!(leases.taken().count(), 6);
    }

    #[test]
    fn a_process_keeps_to_its_own() {
        let mut leases = Leases::default();
        leases.take(1, A);
        leases.take(2, B);
        leases.take(4, A);
        assert_eq!(leases.of(A).collect::<Vec<u8>>(), [1, 4]);
        assert_eq!((leases.holder(2), leases.holder(3)), (Some(B), None));
        assert_eq!(leases.choose(A, |number| number == 1), 4);
        assert_eq!(leases.choose(B, |_| true), 3);
    }

    #[test]
    fn who_comes_back_gets_its_own() {
        let mut leases = Leases::default();
        assert_eq!([leases.choose(A, |_| false), leases.choose(B, |_| false)], [1, 2]);
        assert_eq!([leases.choose(B, |_| false), leases.choose(A, |_| false)], [2, 1]);
        leases.forget(A);
        assert_eq!([leases.choose(ProcessId(13), |_| false), leases.choose(A, |_| false)], [1, 3]);
        for other in 20..40 {
            assert!((1..SPARE).contains(&leases.choose(ProcessId(other), |_| false)));
        }
        assert_eq!(leases.choose(B, |_| false), 2);
    }

    #[test]
    #[should_panic(expected = "kept by nobody")]
    fn nobody_keeps_the_spare_one() {
        Leases::default().take(SPARE, A);
    }
}
