//! The values of a whole set: a list such as `1,0,5`, or `none`.

use crate::mistake::Mistake;
use crate::scan::{list, Word};

pub const EXPECTED: &str = "values -2147483648 to 2147483647 as in 1,0,5, or none";

/// The values that a word lists.
pub fn parse(word: Word) -> Result<Vec<i32>, Mistake> {
    match word.text {
        "none" => Ok(Vec::new()),
        _ => list(word.parts(','), |part| part.number(EXPECTED), "values"),
    }
}

/// The list of values that `parse` reads back.
pub fn name(values: &[i32]) -> String {
    match values {
        [] => "none".to_string(),
        _ => joined(values, ","),
    }
}

pub fn in_words(values: &[i32]) -> String {
    match values {
        [] => "no values".to_string(),
        _ => joined(values, ", "),
    }
}

fn joined(values: &[i32], between: &str) -> String {
    let numbers: Vec<String> = values.iter().map(ToString::to_string).collect();
    numbers.join(between)
}

#[cfg(test)]
mod tests {
    use super::*;

    fn values(text: &str) -> Result<Vec<i32>, Mistake> {
        parse(Word { text, column: 1 })
    }

    #[test]
    fn every_list_comes_back() {
        let most: Vec<i32> = (0..255).map(|number| number * 8_421_505 - 1_073_741_824).collect();
        for list in [&[][..], &[0], &[1, 0, 5], &[i32::MIN, -1, 32_768, i32::MAX], &most] {
            assert_eq!(values(&name(list)).as_deref(), Ok(list));
        }
        assert_eq!(name(&[1, 0, -5]), "1,0,-5");
        assert_eq!(values("+1,007,-0"), Ok(vec![1, 7, 0]));
    }

    #[test]
    fn lists_in_words() {
        assert_eq!(in_words(&[]), "no values");
        assert_eq!(in_words(&[7]), "7");
        assert_eq!(in_words(&[1, 0, -5]), "1, 0, -5");
    }

    #[test]
    fn anything_else_is_a_mistake() {
        for (text, column, found) in [
            ("", 1, "nothing"),
            ("all", 1, "'all'"),
            ("1,", 3, "nothing"),
            (",1", 1, "nothing"),
            ("1,none", 3, "'none'"),
            ("1,0x5", 3, "'0x5'"),
            ("1,0,2147483648", 5, "'2147483648'"),
            ("-2147483649", 1, "'-2147483649'"),
        ] {
            let wanted = format!("0:{column}: expected {EXPECTED}, found {found}");
            assert_eq!(values(text).expect_err(text).to_string(), wanted);
        }
    }
}
