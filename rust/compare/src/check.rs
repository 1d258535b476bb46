//! What the programs wrote for one file, and the first difference between them.

use second::RunFile;

use crate::events::{self, EVENTS};
use crate::program::{Feed, Program};

/// The programs that are compared.
pub struct Programs {
    pub quick: Program,
    pub plain: Program,
    pub second_quick: Program,
    pub second_plain: Program,
    /// Those that replay through the library, with the quick engine.
    pub library: Vec<Program>,
}

/// The texts that all the programs agree on.
pub struct Texts {
    pub quick: Vec<u8>,
    pub plain: Vec<u8>,
}

/// Where two texts part, or what else went wrong, in words.
pub type Difference = String;

impl Programs {
    /// Runs all of them on the file, one after the other.
    pub fn compare(&self, file: &[u8], feed: Feed) -> Result<Texts, Difference> {
        let quick = agreed(&self.quick, &self.second_quick, file, feed)?;
        for program in &self.library {
            let pair = [self.quick.name(), program.name()];
            same(&pair, &quick, &text_of(program, file, feed)?, file)?;
        }
        let plain = agreed(&self.plain, &self.second_plain, file, feed)?;
        let pair = [self.quick.name(), self.plain.name()];
        let (left, right) = (without_looks(&quick, file), without_looks(&plain, file));
        same(&pair, &left, &right, file).map_err(|words| format!("looks left out, {words}"))?;
        Ok(Texts { quick, plain })
    }
}

/// The text that two programs both write.
fn agreed(one: &Program, two: &Program, file: &[u8], feed: Feed) -> Result<Vec<u8>, Difference> {
    let (left, right) = (text_of(one, file, feed)?, text_of(two, file, feed)?);
    same(&[one.name(), two.name()], &left, &right, file)?;
    Ok(left)
}

fn text_of(program: &Program, file: &[u8], feed: Feed) -> Result<Vec<u8>, Difference> {
    program.run(file, feed).map_err(|words| format!("{}: {words}", program.name()))
}

/// Are the two texts equal? The words show the first line where they aren't.
pub fn same(names: &[String; 2], left: &[u8], right: &[u8], file: &[u8]) -> Result<(), Difference> {
    if left == right {
        return Ok(());
    }
    let (mut lines, mut others) = (lines_of(left), lines_of(right));
    let mut line = 0;
    loop {
        let pair = [lines.next(), others.next()];
        if pair[0] != pair[1] {
            let place = match line {
                0 => "the first line".to_string(),
                _ => format!("event {}, {}", line - 1, event_in_words(file, line - 1)),
            };
            let shown = pair.map(|line| line.map_or("no such line".into(), in_quotes));
            return Err(format!(
                "different at {place}\n  {}: {}\n  {}: {}",
                names[0], shown[0], names[1], shown[1]
            ));
        }
        line += 1;
    }
}

/// The lines, each with its newline where it has one.
fn lines_of(text: &[u8]) -> impl Iterator<Item = &[u8]> {
    text.split_inclusive(|&byte| byte == b'\n')
}

fn in_quotes(line: &[u8]) -> String {
    format!("{:?}", String::from_utf8_lossy(line))
}

fn event_in_words(file: &[u8], position: usize) -> String {
    let event = RunFile::read(file).ok().and_then(|run| run.events().nth(position));
    event.map_or("not in the file".to_string(), |event| format!("{event:?}"))
}

/// The text without the looks, the fourth field of every line that shows no state.
fn without_looks(text: &[u8], file: &[u8]) -> Vec<u8> {
    let run = match RunFile::read(file) {
        Ok(run) => run,
        Err(_) => return text.to_vec(),
    };
    let mut lines = lines_of(text);
    let mut rest = lines.next().unwrap_or_default().to_vec();
    for (line, body) in lines.zip(run.bodies()) {
        let asks = EVENTS[events::place(body)].asks;
        for (index, field) in line.split_inclusive(|&byte| byte == b' ').enumerate() {
            if asks || index != 3 {
                rest.extend_from_slice(field);
            }
        }
    }
    rest
}
