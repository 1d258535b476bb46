//! The words of a line, and where they stand.

use std::str::FromStr;

use crate::mistake::Mistake;

/// A piece of a line without blanks, with the column of its first character, counted from 1.
#[derive(Clone, Copy, Debug, PartialEq, Eq)]
pub struct Word<'a> {
    pub text: &'a str,
    pub column: usize,
}

impl<'a> Word<'a> {
    /// The mistake that the word isn't what was expected.
    pub fn mistake(self, expected: &str) -> Mistake {
        Mistake::at(self.column, self.text, expected)
    }

    /// What stands before the first `mark`, and what stands behind it.
    pub fn split(self, mark: char) -> (Word<'a>, Option<Word<'a>>) {
        match self.text.split_once(mark) {
            None => (self, None),
            Some((text, behind)) => {
                let column = self.column + text.chars().count() + 1;
                (Word { text, column: self.column }, Some(Word { text: behind, column }))
            }
        }
    }

    /// The parts of a list.
    pub fn parts(self, mark: char) -> Vec<Word<'a>> {
        let (mut part, mut rest) = self.split(mark);
        let mut parts = vec![part];
        while let Some(behind) = rest {
            (part, rest) = behind.split(mark);
            parts.push(part);
        }
        parts
    }

    /// The word as a decimal number that fits its field.
    pub fn number<T: FromStr>(self, expected: &str) -> Result<T, Mistake> {
        self.text.parse().map_err(|_| self.mistake(expected))
    }

    /// The number behind `0x`, if the word is one.
    pub fn hexadecimal(self) -> Option<u16> {
        let digits = self.text.strip_prefix("0x")?;
        let plain = digits.chars().all(|digit| digit.is_ascii_hexdigit());
        u16::from_str_radix(digits, 16).ok().filter(|_| plain)
    }
}

/// The words of a line that are still to be read.
#[derive(Clone, Debug)]
pub struct Words<'a> {
    rest: &'a str,
    column: usize,
}

impl<'a> Words<'a> {
    /// The words before the comment, which begins at `#`.
    pub fn of(line: &'a str) -> Words<'a> {
        let (rest, _) = line.split_once('#').unwrap_or((line, ""));
        Words { rest: rest.trim_end(), column: 1 }
    }

    fn take(&mut self, length: usize) -> Word<'a> {
        let (text, rest) = self.rest.split_at(length);
        let word = Word { text, column: self.column };
        self.rest = rest;
        self.column += text.chars().count();
        word
    }

    /// The next word; there has to be one.
    fn word(&mut self, expected: &str) -> Result<Word<'a>, Mistake> {
        let column = self.column;
        self.next().ok_or_else(|| Mistake::at_end(column, expected))
    }

    /// What stands behind a name such as `set=` in the next word, if that has it.
    pub fn option(&mut self, name: &str) -> Option<Word<'a>> {
        let mut ahead = self.clone();
        let word = ahead.next()?;
        let text = word.text.strip_prefix(name)?;
        *self = ahead;
        Some(Word { text, column: word.column + name.chars().count() })
    }

    /// What stands behind the name, which may be empty, in the next word; that has to have it.
    pub fn field(&mut self, name: &str, expected: &str) -> Result<Word<'a>, Mistake> {
        if name.is_empty() {
            return self.word(expected);
        }
        match self.option(name) {
            Some(word) => Ok(word),
            None => {
                let expected = format!("{name} with {expected}");
                let word = self.word(&expected)?;
                Err(word.mistake(&expected))
            }
        }
    }

    /// The same, a number.
    pub fn number<T: FromStr>(&mut self, name: &str, expected: &str) -> Result<T, Mistake> {
        self.field(name, expected)?.number(expected)
    }

    /// No word may be left.
    pub fn end(&mut self, expected: &str) -> Result<(), Mistake> {
        self.next().map_or(Ok(()), |word| Err(word.mistake(expected)))
    }
}

impl<'a> Iterator for Words<'a> {
    type Item = Word<'a>;

    fn next(&mut self) -> Option<Word<'a>> {
        let blanks = self.rest.len() - self.rest.trim_start().len();
        self.take(blanks);
        let length = self.rest.find(char::is_whitespace).unwrap_or(self.rest.len());
        Some(self.take(length)).filter(|word| !word.text.is_empty())
    }
}

/// What is read from each word; their number is one byte of a body.
pub fn list<'a, T>(
    words: impl IntoIterator<Item = Word<'a>>,
    read: impl Fn(Word<'a>) -> Result<T, Mistake>,
    things: &str,
) -> Result<Vec<T>, Mistake> {
    let mut list = Vec::new();
    for word in words {
        if list.len() == usize::from(u8::MAX) {
            return Err(word.mistake(&format!("the end of the line after {} {things}", u8::MAX)));
        }
        list.push(read(word)?);
    }
    Ok(list)
}

#[cfg(test)]
mod tests {
    use super::*;

    #[test]
    fn columns_count_characters() {
        let words: Vec<Word> = Words::of(" \tä öü=1,22 # no word").collect();
        assert_eq!(words, [Word { text: "ä", column: 3 }, Word { text: "öü=1,22", column: 5 }]);
        let (name, value) = words[1].split('=');
        assert_eq!((name.text, name.column), ("öü", 5));
        let value = value.expect("a value");
        assert_eq!(value.column, 8);
        assert_eq!(value.parts(',')[1], Word { text: "22", column: 10 });
    }
}
