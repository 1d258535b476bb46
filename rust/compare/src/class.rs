//! Who may do what with a set, as the comparer reads the rules.

use second::Credentials;

/// How a process stands to a set.
#[derive(Clone, Copy, Debug, PartialEq, Eq, PartialOrd, Ord)]
pub enum Class {
    Owner,
    Group,
    Other,
    /// User 0, whatever its other numbers are.
    Root,
}

/// What a call asks of a set.
#[derive(Clone, Copy, Debug, PartialEq, Eq, PartialOrd, Ord)]
pub enum Asked {
    Read,
    Alter,
    Both,
    Remove,
}

/// Owner, owning group and mode of a set.
#[derive(Clone, Copy, Debug, Default)]
pub struct Rights {
    pub owner: u32,
    pub group: u32,
    pub mode: u16,
}

impl Rights {
    pub fn class(&self, who: Credentials) -> Class {
        if who.user == 0 {
            Class::Root
        } else {
            self.by_numbers(who)
        }
    }

    /// The class that decides for all but user 0.
    pub fn by_numbers(&self, who: Credentials) -> Class {
        if who.user == self.owner {
            Class::Owner
        } else if who.group == self.group {
            Class::Group
        } else {
            Class::Other
        }
    }

    /// The three bits of a class; user 0 has none of its own.
    pub fn bits(&self, class: Class) -> u8 {
        let bits = match class {
            Class::Owner => self.mode >> 6,
            Class::Group => self.mode >> 3,
            Class::Other | Class::Root => self.mode,
        };
        bits as u8 & 7
    }

    /// Would the class grant it?
    pub fn grants(&self, class: Class, asked: Asked) -> bool {
        let bits = match asked {
            _ if class == Class::Root => return true,
            Asked::Remove => return class == Class::Owner,
            Asked::Read => 4,
            Asked::Alter => 2,
            Asked::Both => 6,
        };
        self.bits(class) & bits == bits
    }

    pub fn permits(&self, who: Credentials, asked: Asked) -> bool {
        self.grants(self.class(who), asked)
    }
}

#[cfg(test)]
mod tests {
    use super::*;

    const SET: Rights = Rights { owner: 7, group: 9, mode: 0o421 };

    fn class(user: u32, group: u32) -> Class {
        SET.class(Credentials { user, group })
    }

    #[test]
    fn one_class_alone() {
        assert_eq!(class(7, 9), Class::Owner);
        assert_eq!(class(7, 7), Class::Owner);
        assert_eq!(class(9, 9), Class::Group);
        assert_eq!(class(9, 7), Class::Other);
        assert_eq!(class(5, 0), Class::Other);
        assert_eq!(class(0, 9), Class::Root);
    }

    #[test]
    fn what_each_may() {
        let may = |class| {
            [Asked::Read, Asked::Alter, Asked::Both, Asked::Remove]
                .map(|asked| SET.grants(class, asked))
        };
        assert_eq!(may(Class::Owner), [true, false, false, true]);
        assert_eq!(may(Class::Group), [false, true, false, false]);
        assert_eq!(may(Class::Other), [false; 4]);
        assert_eq!(may(Class::Root), [true; 4]);
        let both = Rights { mode: 0o060, ..SET };
        assert!(both.permits(Credentials { user: 5, group: 9 }, Asked::Both));
        assert!(!both.permits(Credentials { user: 7, group: 9 }, Asked::Both));
    }
}
