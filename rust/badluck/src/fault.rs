//! The faults that BAD_LUCK lists, parted by commas: `write 2 fails 28` is the second write, which
//! fails with error number 28, and `read 1 takes 5` the first read, which takes at most five bytes.

use std::os::raw::c_int;

/// What becomes of a call.
pub enum Fault {
    /// It fails with an error number.
    Fails(c_int),
    /// It takes at most so many bytes.
    Takes(usize),
}

/// The fault that the n-th call of a name meets. A list that can't be read ends the program.
pub fn met(name: &str, nth: usize) -> Option<Fault> {
    let list = std::env::var("BAD_LUCK").unwrap_or_default();
    for text in list.split(',').filter(|text| !text.is_empty()) {
        match read(text) {
            Some((call, at, fault)) if call == name && at == nth => return Some(fault),
            Some(_) => {}
            None => std::process::abort(),
        }
    }
    None
}

/// A fault as a name, a number, what becomes of that call, and a number again.
fn read(text: &str) -> Option<(&str, usize, Fault)> {
    let words: Vec<&str> = text.split_whitespace().collect();
    match words[..] {
        [call @ ("read" | "write"), at, how, number] => {
            let fault = match how {
                "fails" => Fault::Fails(number.parse().ok()?),
                "takes" => Fault::Takes(number.parse().ok()?),
                _ => return None,
            };
            Some((call, at.parse().ok()?, fault))
        }
        _ => None,
    }
}
