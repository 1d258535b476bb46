//! The line of an event, read back.

/// A code and, where judging gave it, the position of the operation that decided.
#[derive(Clone, Copy, Debug, PartialEq, Eq)]
pub struct Code {
    pub number: i32,
    pub position: Option<u8>,
}

/// All of a line but its own position.
#[derive(Debug, PartialEq, Eq)]
pub struct Line {
    pub code: Code,
    /// Those behind the code: value and looks, or what a query or a reading shows.
    pub numbers: Vec<i32>,
    /// Processes, and the codes they are woken with.
    pub wakings: Vec<(u8, Code)>,
}

impl Code {
    fn read(field: &str) -> Option<Code> {
        let (number, position) = match field.split_once('@') {
            Some((number, position)) => (number, Some(position.parse().ok()?)),
            None => (field, None),
        };
        Some(Code { number: number.parse().ok()?, position })
    }
}

impl Line {
    /// The line, if it has the form of one.
    pub fn read(line: &str) -> Option<Line> {
        let mut fields = line.split(' ').skip(1);
        let code = Code::read(fields.next()?)?;
        let (mut numbers, mut wakings) = (Vec::new(), Vec::new());
        for field in fields {
            match field.split_once('=') {
                Some((process, code)) => {
                    let process =
                        process.parse().ok().filter(|process| (1..=8).contains(process))?;
                    wakings.push((process, Code::read(code)?));
                }
                None => numbers.push(field.parse().ok()?),
            }
        }
        Some(Line { code, numbers, wakings })
    }
}

/// What is told of the events of a file, one after the other, by the lines of the second program.
#[cfg(test)]
pub fn followed<'a, T>(
    file: &'a [u8],
    mut follow: impl FnMut(second::Event<'a>, &Line) -> T,
) -> Vec<T> {
    let text = String::from_utf8(second::replay(file, second::Rule::Quick)).expect("a text");
    let run = second::RunFile::read(file).expect("a good file");
    let read = |line| Line::read(line).expect("the form of a line");
    let all = run.events().zip(text.lines().skip(1));
    all.map(|(event, line)| follow(event, &read(line))).collect()
}

#[cfg(test)]
mod tests {
    use super::*;

    fn code(number: i32, position: Option<u8>) -> Code {
        Code { number, position }
    }

    #[test]
    fn with_and_without_positions() {
        let wakings = vec![(3, code(11, Some(1))), (8, code(0, None)), (2, code(34, Some(31)))];
        let done = Line { code: code(0, None), numbers: vec![0, 5], wakings };
        assert_eq!(Line::read("17 0 0 5 3=11@1 8=0 2=34@31"), Some(done));
        let asleep = Line { code: code(-1, Some(0)), numbers: vec![0, 0], wakings: vec![] };
        assert_eq!(Line::read("1 -1@0 0 0"), Some(asleep));
        let shown = Line { code: code(0, None), numbers: vec![9, 8, 1, 2], wakings: vec![] };
        assert_eq!(Line::read("4 0 9 8 1 2"), Some(shown));
    }

    #[test]
    fn of_readings() {
        let numbers = vec![9, 1, 0, 32_767, 0, 2];
        let shown = Line { code: code(0, None), numbers, wakings: vec![] };
        assert_eq!(Line::read("4 0 9 1 0 32767 0 2"), Some(shown));
        let refused = Line { code: code(22, None), numbers: vec![], wakings: vec![] };
        assert_eq!(Line::read("7 22"), Some(refused));
    }

    #[test]
    fn other_forms() {
        for line in ["", "4", "4 x 0 0", "4 11@ 0 0", "4 @1 0 0", "4 0 0 1 3=", "4 0 0 1 9=0"] {
            assert_eq!(Line::read(line), None, "{line:?}");
        }
    }
}
