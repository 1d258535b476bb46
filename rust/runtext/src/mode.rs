//! The mode of a set: nine letters as in `rw-r-----`, or octal digits as in `640`. The bits that no
//! letter has can only be written as digits.

use crate::mistake::Mistake;
use crate::scan::Word;

/// The mode that a create has without one: all may read and alter.
pub const LEFT_OUT: u16 = 0o666;

/// The largest mode of a set.
const MAX: u16 = 0o777;

/// Bits of a class. The third is kept, and permits nothing.
pub const READ: u16 = 4;
pub const ALTER: u16 = 2;

const LETTERS: &str = "rwxrwxrwx";

const EXPECTED: &str = "a mode as in rw-r----- or 640, 0 to 177777";

pub fn parse(word: Word) -> Result<u16, Mistake> {
    let mode = of_letters(word.text).or_else(|| of_digits(word.text));
    mode.ok_or_else(|| word.mistake(EXPECTED))
}

fn of_letters(text: &str) -> Option<u16> {
    let mut mode = 0;
    for (letter, set) in text.chars().zip(LETTERS.chars()) {
        mode = mode << 1 | u16::from(letter == set);
    }
    Some(mode).filter(|mode| letters(*mode) == text)
}

fn of_digits(text: &str) -> Option<u16> {
    let plain = text.chars().all(|digit| digit.is_digit(8));
    u16::from_str_radix(text, 8).ok().filter(|_| plain)
}

/// The name of a mode that `parse` reads back.
pub fn name(mode: u16) -> String {
    match mode {
        0..=MAX => letters(mode),
        _ => format!("{mode:o}"),
    }
}

fn letters(mode: u16) -> String {
    [6, 3, 0].map(|shift| class(mode >> shift)).concat()
}

/// The lowest three bits, as in `rw-`.
pub fn class(bits: u16) -> String {
    let letter = |(bit, letter)| if bits & bit != 0 { letter } else { '-' };
    [(READ, 'r'), (ALTER, 'w'), (1, 'x')].map(letter).iter().collect()
}

#[cfg(test)]
mod tests {
    use super::*;

    fn mode(text: &str) -> Result<u16, Mistake> {
        parse(Word { text, column: 1 })
    }

    #[test]
    fn every_mode_comes_back() {
        for bits in 0..=u16::MAX {
            assert_eq!(mode(&name(bits)), Ok(bits));
            assert_eq!(mode(&format!("{bits:o}")), Ok(bits));
        }
    }

    #[test]
    fn letters_as_far_as_they_go() {
        for (bits, wanted) in [
            (0, "---------"),
            (0o640, "rw-r-----"),
            (0o421, "r---w---x"),
            (0o777, "rwxrwxrwx"),
            (0o1000, "1000"),
            (0o177777, "177777"),
        ] {
            assert_eq!(name(bits), wanted);
        }
        assert_eq!(mode("00640"), Ok(0o640));
        assert_eq!(LEFT_OUT, mode("rw-rw-rw-").expect("a mode"));
    }

    #[test]
    fn anything_else_is_a_mistake() {
        let texts = "all rw- rw-r---- rw-r------ wr-r----- Rw-r----- rw-r----ä 640- -640 +640 648 \
            0o640 200000";
        for text in texts.split(' ').chain([""]) {
            let found = mode(text).expect_err(text);
            assert_eq!((found.column, &found.expected[..]), (1, EXPECTED), "{text}");
        }
    }
}
