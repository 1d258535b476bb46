//! By which number a call is handed in, and as whom.

use crate::caller::{Caller, Role};
use crate::daemon::Daemon;

impl Daemon {
    /// The number for a call at a set. It is awake, and acts as the caller from now on.
    pub fn number_at(&mut self, identifier: i32, caller: &Caller) -> u8 {
        self.number_for(caller, self.role_at(identifier, caller))
    }

    /// The number for a call. Only who sleeps or holds adjustments behind it keeps it.
    pub fn number_for(&mut self, caller: &Caller, role: Role) -> u8 {
        let sleepers = &self.sleepers;
        let asleep = |number| sleepers.iter().any(|sleeper| sleeper.number == number);
        let number = self.leases.choose(caller.process, asleep);
        self.engine.record().name(number, caller.pid);
        self.engine.act_as(number, role);
        number
    }

    /// As whom the service is to judge a caller at a set. It knows one group of a process, and Linux
    /// many: so it is told the set's group where the caller is in that, else the caller's own.
    fn role_at(&self, identifier: i32, caller: &Caller) -> Role {
        let group = self.sets.find(identifier).map(|set| set.owner.group);
        match group {
            Ok(group) if caller.is_in(group) => Role { group, ..caller.role },
            _ => caller.role,
        }
    }
}

#[cfg(test)]
mod tests {
    use super::*;
    use crate::trial::*;
    use vairolent::Operation;

    const EPERM: i32 = 1;
    const EACCES: i32 = 13;

    /// Every call on a set: of all that it may, and no more.
    fn may(trial: &mut Trial, set: i32, caller: &Caller, reads: bool, alters: bool) {
        let code = |may: bool| if may { 0 } else { EACCES };
        for (command, wanted) in
            [(GET_VALUE, reads), (GET_ALL, reads), (SET_VALUE, alters), (SET_ALL, alters)]
        {
            assert_eq!(trial.control(caller, set, command).0, code(wanted), "{command}");
        }
        let [up, zero, down] = [1, 0, -1].map(|amount| Operation::new(0, amount).nowait());
        assert_eq!(trial.operate(caller, set, &[up, down]), Some(code(alters)));
        assert_eq!(trial.operate(caller, set, &[zero]), Some(code(reads)));
        assert_eq!(trial.operate(caller, set, &[up, down, zero]), Some(code(alters && reads)));
    }

    /// A class has the bits that are asked, and the others those that it has not.
    #[test]
    fn each_class_by_its_bits() {
        let mut trial = Trial::new();
        let owner = caller(1, 7, &[9]);
        let [group, also] = [caller(2, 8, &[9, 5]), caller(3, 8, &[5, 4, 9])];
        let [other, root] = [caller(4, 8, &[5, 4]), caller(5, 0, &[5])];
        let classes = [(6, vec![&owner]), (3, vec![&group, &also]), (0, vec![&other])];
        for bits in 0..8 {
            for (shift, callers) in &classes {
                let mode = 0o111 * (7 - bits) & !(7 << shift) | bits << shift;
                let set = trial.make(&owner, mode);
                for caller in callers {
                    may(&mut trial, set, caller, bits & 4 != 0, bits & 2 != 0);
                }
                may(&mut trial, set, &root, true, true);
                for caller in [&group, &also, &other] {
                    assert_eq!(trial.control(caller, set, REMOVE).0, EPERM);
                }
                let caller = if bits % 2 == 0 { &owner } else { &root };
                assert_eq!(trial.control(caller, set, REMOVE).0, 0);
            }
        }
    }

    /// Whose numbers they are is told once, whatever is called.
    #[test]
    fn programs_of_one_user_are_told_once_each() {
        let mut trial = Trial::new();
        let callers = [caller(1, 7, &[9]), caller(2, 7, &[9]), caller(3, 8, &[8])];
        let set = trial.make(&callers[0], 0o666);
        for _ in 0..50 {
            callers.iter().for_each(|caller| may(&mut trial, set, caller, true, true));
        }
        assert_eq!(trial.told(), 3);
    }

    #[test]
    fn root_is_told_nothing() {
        let mut trial = Trial::new();
        let (root, other) = (caller(1, 0, &[0]), caller(2, 0, &[0, 5]));
        let set = trial.make(&root, 0);
        may(&mut trial, set, &other, true, true);
        assert_eq!(trial.control(&root, set, REMOVE).0, 0);
        assert_eq!(trial.told(), 0);
    }

    /// A process that changes its user is judged by the present one.
    #[test]
    fn who_changes_is_told_again() {
        let mut trial = Trial::new();
        let [before, after] = [caller(1, 7, &[9]), caller(1, 8, &[8])];
        let set = trial.make(&before, 0o600);
        for _ in 0..5 {
            may(&mut trial, set, &after, false, false);
            assert_eq!(trial.control(&after, set, REMOVE).0, EPERM);
            may(&mut trial, set, &before, true, true);
        }
        let own = trial.make(&after, 0o600);
        may(&mut trial, own, &before, false, false);
        assert_eq!(trial.told(), 1 + 10 + 2);
    }

    /// One who is in two groups is of both, each at its set, and what it makes is its own group's.
    #[test]
    fn a_group_for_each_set() {
        let mut trial = Trial::new();
        let both = caller(3, 8, &[5, 4, 9]);
        let sets = [9, 4, 5, 6].map(|group| trial.make(&caller(1, 7, &[group]), 0o060));
        for _ in 0..3 {
            for (set, is_in) in sets.into_iter().zip([true, true, true, false]) {
                may(&mut trial, set, &both, is_in, is_in);
            }
        }
        assert_eq!(trial.control(&caller(1, 7, &[6]), sets[3], REMOVE).0, 0);
        let own = trial.make(&both, 0o060);
        may(&mut trial, own, &caller(2, 7, &[9]), false, false);
        may(&mut trial, own, &caller(2, 7, &[5]), true, true);
    }

    /// Where seven sleep, and one of them is its own thread, the spare number stands for everybody.
    #[test]
    fn the_spare_number_acts_as_each() {
        let mut trial = Trial::new();
        let [owner, other] = [caller(1, 7, &[9]), caller(2, 8, &[8])];
        let [hidden, open] = [0o600, 0o666].map(|mode| trial.make(&owner, mode));
        for caller in [&owner, &other, &other, &other, &other, &other, &other] {
            assert_eq!(trial.operate(caller, open, &[Operation::new(1, -1)]), None);
        }
        for _ in 0..3 {
            may(&mut trial, hidden, &owner, true, true);
            may(&mut trial, hidden, &other, false, false);
            assert_eq!(trial.control(&other, hidden, REMOVE).0, EPERM);
        }
        let own = trial.make(&other, 0o600);
        may(&mut trial, own, &owner, false, false);
        assert_eq!(trial.operate(&other, open, &[Operation::new(1, 7)]), Some(0));
        assert_eq!(trial.daemon.answers.len(), 7);
    }
}
