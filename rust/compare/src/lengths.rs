//! Follows the events of a file by their lines, to tell how arrays ended, by their lengths.

use second::event::OPERATION;
use second::Event;

use crate::line::Line;

/// An array by the number of its operations: as it is called with, with a wait too, as a sleeper
/// has it, and as one whose wait is over.
#[derive(Clone, Copy, Debug, PartialEq, Eq, PartialOrd, Ord)]
pub enum Length {
    Called(usize),
    Timed(usize),
    Asleep(usize),
    Ended(usize),
}

/// Those at the limit, with their names and the codes that have to come.
pub const LENGTHS: [(Length, &str, &[i32]); 8] = [
    (Length::Called(32), "operate of 32 with", &[-1, 0, 11, 34]),
    (Length::Called(33), "operate of 33 with", &[7]),
    (Length::Called(255), "operate of 255 with", &[7]),
    (Length::Timed(32), "timed, of 32 with", &[-1, 0, 11, 34]),
    (Length::Timed(33), "timed, of 33 with", &[7]),
    (Length::Timed(255), "timed, of 255 with", &[7]),
    (Length::Asleep(32), "waking of 32 with", &[0, 11, 34]),
    (Length::Ended(32), "end of 32 with", &[11]),
];

#[derive(Default)]
pub struct Lengths {
    /// The operations of each process's last call that went to sleep.
    asleep: [usize; 9],
}

impl Lengths {
    /// Follows one event: the arrays that got a code, and which.
    pub fn follow(&mut self, event: Event, line: &Line) -> Vec<(Length, i32)> {
        let mut ended = Vec::new();
        if let Event::Operate { process, wait, operations, .. } = event {
            let length = operations.len() / OPERATION;
            ended.push((Length::Called(length), line.code.number));
            ended.extend(wait.map(|_| (Length::Timed(length), line.code.number)));
            if line.code.number == -1 {
                self.asleep[usize::from(process)] = length;
            }
        }
        for &(process, code) in &line.wakings {
            let length = self.asleep[usize::from(process)];
            let by_time = matches!(event, Event::Clock { .. });
            let kind = if by_time { Length::Ended(length) } else { Length::Asleep(length) };
            ended.push((kind, code.number));
        }
        ended
    }
}

#[cfg(test)]
mod tests {
    use super::*;
    use crate::line::followed;
    use crate::scene::OPEN;
    use second::event::{clock, create, operate, set_value, signal, timed_operate};
    use second::run_file;

    #[test]
    fn called_and_woken() {
        let takes = [(0, -1, 0); 255];
        let run = [
            create(8, 1, OPEN),
            operate(1, 0, &takes[..32]),
            operate(2, 0, &takes[..2]),
            // Refused: their lengths are of no sleeper.
            operate(1, 0, &takes[..3]),
            operate(3, 0, &takes[..33]),
            operate(0, 0, &takes),
            operate(2, 0, &[]),
            signal(2),
            set_value(8, 0, 0, 32),
            timed_operate(1, 0, 5, &takes[..4]),
            clock(5),
        ];
        let wanted = [
            (Length::Called(32), -1),
            (Length::Called(2), -1),
            (Length::Called(3), 16),
            (Length::Called(33), 7),
            (Length::Called(255), 3),
            (Length::Called(0), 16),
            (Length::Asleep(2), 4),
            (Length::Asleep(32), 0),
            (Length::Called(4), -1),
            (Length::Timed(4), -1),
            (Length::Ended(4), 11),
        ];
        let mut lengths = Lengths::default();
        let ended = followed(&run_file(&run), |event, line| lengths.follow(event, line));
        assert_eq!(ended.concat(), wanted);
    }
}
