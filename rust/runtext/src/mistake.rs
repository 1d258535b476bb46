//! A mistake in a text: where it stands, and what was expected there.

use std::fmt;

#[derive(Clone, Debug, PartialEq, Eq)]
pub struct Mistake {
    /// Both are counted from 1. The line is known only to who reads the lines.
    pub line: usize,
    pub column: usize,
    pub expected: String,
    pub found: String,
}

/// What is shown of a long word, in characters.
const SHOWN: usize = 40;

impl Mistake {
    /// The word in this column isn't what was expected.
    pub fn at(column: usize, word: &str, expected: &str) -> Mistake {
        let mut found: String = word.chars().take(SHOWN).collect();
        if found.len() < word.len() {
            found += "...";
        }
        let found = if found.is_empty() {
            "nothing".to_string()
        } else {
            format!("'{}'", found.escape_debug())
        };
        Mistake { line: 0, column, expected: expected.to_string(), found }
    }

    /// The line ends where something else was expected.
    pub fn at_end(column: usize, expected: &str) -> Mistake {
        let found = "the end of the line".to_string();
        Mistake { line: 0, column, expected: expected.to_string(), found }
    }
}

impl fmt::Display for Mistake {
    fn fmt(&self, f: &mut fmt::Formatter) -> fmt::Result {
        let Mistake { line, column, expected, found } = self;
        write!(f, "{line}:{column}: expected {expected}, found {found}")
    }
}
