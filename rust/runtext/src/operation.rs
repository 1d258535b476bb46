//! One operation, and its text: number, amount and flags as in `0:-1`, `1:+3/undo` or
//! `2:0/nowait,0x7`.

use std::fmt;

use crate::mistake::Mistake;
use crate::scan::Word;

pub const NOWAIT: u16 = 2_048;
pub const UNDO: u16 = 4_096;

#[derive(Clone, Copy, Debug, PartialEq, Eq)]
pub struct Operation {
    pub number: u16,
    pub amount: i16,
    /// All sixteen bits, the ignored ones too.
    pub flags: u16,
}

const OPERATION: &str = "an operation as in 0:-1 or 1:+3/undo";
pub const NUMBER: &str = "the number of a semaphore, 0 to 65535";
const AMOUNT: &str = "an amount, -32768 to 32767";
const FLAGS: &str = "undo, nowait or bits as in 0x0007";

pub fn parse(word: Word) -> Result<Operation, Mistake> {
    let (number, rest) = word.split(':');
    let rest = rest.ok_or_else(|| word.mistake(OPERATION))?;
    let (amount, flags) = rest.split('/');
    Ok(Operation {
        number: number.number(NUMBER)?,
        amount: amount.number(AMOUNT)?,
        flags: flags.map_or(Ok(0), parse_flags)?,
    })
}

fn parse_flags(word: Word) -> Result<u16, Mistake> {
    let mut flags = 0;
    for part in word.parts(',') {
        flags |= match part.text {
            "undo" => UNDO,
            "nowait" => NOWAIT,
            _ => part.hexadecimal().ok_or_else(|| part.mistake(FLAGS))?,
        };
    }
    Ok(flags)
}

/// The names of the flags, then the ignored bits if there are any.
fn flag_names(flags: u16) -> Vec<String> {
    let mut names = Vec::new();
    if flags & UNDO != 0 {
        names.push("undo".to_string());
    }
    if flags & NOWAIT != 0 {
        names.push("nowait".to_string());
    }
    let ignored = flags & !(UNDO | NOWAIT);
    if ignored != 0 {
        names.push(format!("{ignored:#06x}"));
    }
    names
}

/// What the operations add to a semaphore together.
pub fn added(operations: &[Operation], number: u16) -> i32 {
    let there = operations.iter().filter(|operation| operation.number == number);
    there.map(|operation| i32::from(operation.amount)).sum()
}

/// An array in words; an operation that stands several times in a row is told once.
pub fn array_in_words(operations: &[Operation]) -> String {
    let mut runs: Vec<(&Operation, u32)> = Vec::new();
    for operation in operations {
        match runs.last_mut() {
            Some((same, times)) if *same == operation => *times += 1,
            _ => runs.push((operation, 1)),
        }
    }
    let words = |(operation, times): &(&Operation, u32)| match times {
        1 => operation.in_words(),
        _ => format!("{}, {times} times", operation.in_words()),
    };
    runs.iter().map(words).collect::<Vec<_>>().join("; ")
}

impl Operation {
    fn in_words(&self) -> String {
        let number = self.number;
        let magnitude = self.amount.unsigned_abs();
        let words = match self.amount {
            0 => format!("wait for zero at semaphore {number}"),
            1.. => format!("add {magnitude} to semaphore {number}"),
            _ => format!("take {magnitude} from semaphore {number}"),
        };
        match &flag_names(self.flags)[..] {
            [] => words,
            names => format!("{words} ({})", names.join(", ")),
        }
    }
}

impl fmt::Display for Operation {
    fn fmt(&self, f: &mut fmt::Formatter) -> fmt::Result {
        match self.amount {
            0 => write!(f, "{}:0", self.number)?,
            amount => write!(f, "{}:{amount:+}", self.number)?,
        }
        match &flag_names(self.flags)[..] {
            [] => Ok(()),
            names => write!(f, "/{}", names.join(",")),
        }
    }
}

#[cfg(test)]
mod tests {
    use super::*;

    fn operation(text: &str) -> Result<Operation, Mistake> {
        parse(Word { text, column: 1 })
    }

    #[test]
    fn every_amount_and_every_flag_comes_back() {
        for bits in 0..=u16::MAX {
            let wanted = Operation { number: bits, amount: bits as i16, flags: bits };
            assert_eq!(operation(&wanted.to_string()), Ok(wanted));
        }
    }

    #[test]
    fn the_names_in_their_order() {
        let text = |text| operation(text).expect("an operation").to_string();
        assert_eq!(text("0:-1"), "0:-1");
        assert_eq!(text("1:3/0x0"), "1:+3");
        assert_eq!(text("2:-0/nowait,undo"), "2:0/undo,nowait");
        assert_eq!(text("2:+1/0x1807"), "2:+1/undo,nowait,0x0007");
    }

    #[test]
    fn the_same_several_times() {
        let array = ["0:+1", "0:+1", "0:+1/undo", "1:-2", "0:+1", "0:0/nowait", "0:0/nowait"];
        let array = array.map(|text| operation(text).expect("an operation"));
        let wanted = "add 1 to semaphore 0, 2 times; add 1 to semaphore 0 (undo); \
            take 2 from semaphore 1; add 1 to semaphore 0; \
            wait for zero at semaphore 0 (nowait), 2 times";
        assert_eq!(array_in_words(&array), wanted);
        let array = [[array[0]; 31].as_slice(), &array[3..4]].concat();
        let wanted = "add 1 to semaphore 0, 31 times; take 2 from semaphore 1";
        assert_eq!(array_in_words(&array), wanted);
    }

    #[test]
    fn amounts_on_one_semaphore_are_added() {
        let operations = ["0:-32768", "1:+5", "0:-32768", "0:+3", "0:0"];
        let operations = operations.map(|text| operation(text).expect("an operation"));
        assert_eq!(added(&operations, 0), -65_533);
        assert_eq!(added(&operations, 1), 5);
        assert_eq!(added(&operations, 2), 0);
    }

    #[test]
    fn mistakes_say_where() {
        let words = |text| operation(text).expect_err(text).to_string();
        assert_eq!(words("nowait"), format!("0:1: expected {OPERATION}, found 'nowait'"));
        assert_eq!(words("x:1"), format!("0:1: expected {NUMBER}, found 'x'"));
        assert_eq!(words("0:40000"), format!("0:3: expected {AMOUNT}, found '40000'"));
        assert_eq!(words("0:"), format!("0:3: expected {AMOUNT}, found nothing"));
        assert_eq!(words("0:-1/undo,wait"), format!("0:11: expected {FLAGS}, found 'wait'"));
        assert_eq!(words("0:-1/0x10000"), format!("0:6: expected {FLAGS}, found '0x10000'"));
    }
}
