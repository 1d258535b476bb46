//! What doesn't vary with the load of the machine: instructions and peak memory.

use std::io::ErrorKind;
use std::path::Path;

use crate::program::Program;

const VALGRIND: [&str; 3] = ["valgrind", "--tool=callgrind", "--callgrind-out-file=/dev/null"];
/// GNU time writes the peak resident memory in KiB, as the kernel tells at the program's end.
const GNU_TIME: [&str; 3] = ["/usr/bin/time", "-f", "%M"];

/// The instructions of one run, loader included; none where valgrind is missing.
pub fn instructions(program: &Program, file: &Path) -> Result<Option<u64>, String> {
    let words = watched(program, &VALGRIND, file)?;
    Ok(words.and_then(|words| collected(&words)))
}

/// The peak memory of one run; none where GNU time is missing.
pub fn peak_kib(program: &Program, file: &Path) -> Result<Option<u64>, String> {
    let words = watched(program, &GNU_TIME, file)?;
    Ok(words.and_then(|words| words.trim().parse().ok()))
}

/// What the watcher says on standard error, if it is there and the run goes well.
fn watched(program: &Program, watcher: &[&str], file: &Path) -> Result<Option<String>, String> {
    match program.under(watcher, file)?.output() {
        Ok(output) => {
            let words = String::from_utf8_lossy(&output.stderr).to_string();
            Ok(Some(words).filter(|_| output.status.success()))
        }
        Err(error) if error.kind() == ErrorKind::NotFound => Ok(None),
        Err(error) => Err(format!("{}: {error}", watcher[0])),
    }
}

/// The number in callgrind's line `==1== Collected : 123`.
fn collected(words: &str) -> Option<u64> {
    let line = words.lines().find(|line| line.contains("Collected :"))?;
    line.rsplit(' ').next()?.parse().ok()
}

#[cfg(test)]
mod tests {
    use super::*;

    #[test]
    fn the_line_of_callgrind() {
        let words = "==9== Events    : Ir\n==9== Collected : 1234567\n==9== \n";
        assert_eq!(collected(words), Some(1_234_567));
        assert_eq!(collected("valgrind: failed to start tool"), None);
    }
}
