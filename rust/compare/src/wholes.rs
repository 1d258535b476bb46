//! Follows the events of a file by their lines, to tell how whole sets were set and read.

use std::collections::BTreeMap;

use second::event::VALUE;
use second::Event;

use crate::choice::MAX;
use crate::line::Line;

/// What a setting or a reading of a live set shows, beside a code or another number.
#[derive(Clone, Copy, Debug, PartialEq, Eq, PartialOrd, Ord)]
pub enum Whole {
    /// The code of a setting of so many values, or of about as many as the set has.
    Of(usize),
    OneLess,
    AsMany,
    OneMore,
    /// The code where one of as many values is out of range, by its place among several.
    First,
    Inner,
    Last,
    /// The code where values are out of range that are not as many.
    Twice,
    /// The code of a waking by a setting to what the reading before it showed.
    Same,
    /// How many semaphores a reading shows.
    Read,
    /// The number of a semaphore where some wait for increase and some for zero.
    Both,
}

/// All of them, with their names and the numbers that have to come.
pub const WHOLES: [(Whole, &str, &[i32]); 13] = [
    (Whole::Of(0), "set all of 0 with", &[22]),
    (Whole::Of(9), "set all of 9 with", &[22]),
    (Whole::Of(255), "set all of 255 with", &[22]),
    (Whole::OneLess, "one value less with", &[22]),
    (Whole::AsMany, "as many values with", &[0, 34]),
    (Whole::OneMore, "one value more with", &[22]),
    (Whole::First, "first out of range", &[34]),
    (Whole::Inner, "inner out of range", &[34]),
    (Whole::Last, "last out of range", &[34]),
    (Whole::Twice, "wrong twice with", &[22]),
    (Whole::Same, "same, wakings with", &[34]),
    (Whole::Read, "read all of", &[1, 2, 3, 4, 5, 6, 7, 8]),
    (Whole::Both, "both counts at", &[0, 1, 2, 3, 4, 5, 6, 7]),
];

#[derive(Default)]
pub struct Wholes {
    /// The live sets by their identifiers, with how many semaphores they have.
    counts: BTreeMap<i32, usize>,
    /// Set and values of the event before, if it was a reading.
    read: Option<(i32, Vec<i32>)>,
}

impl Wholes {
    /// Follows one event: what it shows.
    pub fn follow(&mut self, event: Event, line: &Line) -> Vec<(Whole, i32)> {
        let read = self.read.take();
        match (event, line.code.number, &line.numbers[..]) {
            (Event::Create { count, .. }, 0, [identifier, ..]) => {
                self.counts.insert(*identifier, count.into());
            }
            (Event::Remove { identifier, .. }, 0, _) => {
                self.counts.remove(&identifier);
            }
            (Event::SetAll { identifier, values, .. }, ..) => {
                return self.set(identifier, values, read, line);
            }
            (Event::ReadAll { identifier, .. }, 0, numbers) => {
                self.read = Some((identifier, numbers.iter().copied().step_by(3).collect()));
                return shown(numbers);
            }
            _ => {}
        }
        Vec::new()
    }

    fn set(
        &self,
        identifier: i32,
        bytes: &[u8],
        read: Option<(i32, Vec<i32>)>,
        line: &Line,
    ) -> Vec<(Whole, i32)> {
        let count = match self.counts.get(&identifier) {
            Some(&count) => count,
            None => return Vec::new(),
        };
        let value = |four: &[u8]| i32::from_le_bytes([four[0], four[1], four[2], four[3]]);
        let values: Vec<i32> = bytes.chunks_exact(VALUE).map(value).collect();
        let kinds =
            [Some(Whole::Of(values.len())), beside(values.len(), count), out(&values, count)];
        let mut shown: Vec<(Whole, i32)> =
            kinds.into_iter().flatten().map(|kind| (kind, line.code.number)).collect();
        if read == Some((identifier, values)) {
            shown.extend(line.wakings.iter().map(|(_, code)| (Whole::Same, code.number)));
        }
        shown
    }
}

/// About as many values as the set has.
fn beside(given: usize, count: usize) -> Option<Whole> {
    match given as i32 - count as i32 {
        -1 => Some(Whole::OneLess),
        0 => Some(Whole::AsMany),
        1 => Some(Whole::OneMore),
        _ => None,
    }
}

/// Values out of range: one of several, or any where they are not as many as the set has.
fn out(values: &[i32], count: usize) -> Option<Whole> {
    let is_out = |at: &usize| !(0..=MAX).contains(&values[*at]);
    let last = count - 1;
    match (0..values.len()).filter(is_out).collect::<Vec<_>>()[..] {
        [_, ..] if values.len() != count => Some(Whole::Twice),
        [0] if last > 0 => Some(Whole::First),
        [at] if at > 0 && at < last => Some(Whole::Inner),
        [at] if at > 0 => Some(Whole::Last),
        _ => None,
    }
}

/// What a reading shows: value, for increase and for zero of each semaphore.
fn shown(numbers: &[i32]) -> Vec<(Whole, i32)> {
    let semaphores = (0..).zip(numbers.chunks_exact(3));
    let both = semaphores.filter(|(_, semaphore)| semaphore[1] > 0 && semaphore[2] > 0);
    let read = (Whole::Read, numbers.len() as i32 / 3);
    both.map(|(number, _)| (Whole::Both, number)).chain([read]).collect()
}

#[cfg(test)]
mod tests {
    use super::*;
    use crate::line::followed;
    use crate::scene::OPEN;
    use second::event::{create, operate, read_all, remove, set_all, Body};
    use second::{run_file, UNDO};

    /// What the last events of a run show, once a set of so many semaphores is there.
    fn shown_on(count: u8, bodies: &[Body]) -> Vec<Vec<(Whole, i32)>> {
        let file = run_file(&[&[create(8, count, OPEN)], bodies].concat());
        let mut wholes = Wholes::default();
        followed(&file, |event, line| wholes.follow(event, line)).split_off(1)
    }

    #[test]
    fn numbers_of_values() {
        let run = [0, 1, 2, 3, 4, 9, 255].map(|number| set_all(8, 0, &vec![1; number]));
        let of = |number, code| (Whole::Of(number), code);
        let wanted = [
            vec![of(0, 22)],
            vec![of(1, 22)],
            vec![of(2, 22), (Whole::OneLess, 22)],
            vec![of(3, 0), (Whole::AsMany, 0)],
            vec![of(4, 22), (Whole::OneMore, 22)],
            vec![of(9, 22)],
            vec![of(255, 22)],
        ];
        assert_eq!(shown_on(3, &run), wanted);
    }

    /// What the settings show beside their numbers of values.
    fn out_of_range(count: u8, settings: &[&[i32]]) -> Vec<Option<(Whole, i32)>> {
        let run: Vec<Body> = settings.iter().map(|values| set_all(8, 0, values)).collect();
        let beside_numbers = |shown: Vec<(Whole, i32)>| {
            let numbers = |kind| matches!(kind, Whole::Of(_) | Whole::AsMany | Whole::OneMore);
            shown.into_iter().find(|(kind, _)| !numbers(*kind))
        };
        shown_on(count, &run).into_iter().map(beside_numbers).collect()
    }

    #[test]
    fn values_out_of_range() {
        let settings: [&[i32]; 7] = [
            &[-1, 0, 0],
            &[0, 32_768, 0],
            &[0, 0, -1],
            &[-1, 0, -1],
            &[0; 3],
            &[0; 4],
            &[0, 0, 0, -1],
        ];
        let [first, inner, last, twice] =
            [(Whole::First, 34), (Whole::Inner, 34), (Whole::Last, 34), (Whole::Twice, 22)]
                .map(Some);
        assert_eq!(out_of_range(3, &settings), [first, inner, last, None, None, None, twice]);
        // A single value is neither first nor last.
        assert_eq!(out_of_range(1, &[&[-1], &[-1, 0]]), [None, twice]);
    }

    #[test]
    fn the_same_values() {
        let up = (0, 20_000, UNDO);
        let sleep = operate(1, 0, &[up, (0, -20_000, 0), up, (1, -1, 0)]);
        let run = [
            set_all(8, 0, &[32_767, 0]),
            operate(1, 0, &[(0, -32_767, UNDO)]),
            sleep,
            read_all(8, 0),
            set_all(8, 0, &[0, 0]),
            operate(2, 0, &[(0, -1, 0)]),
            // Another event between, and then other values.
            read_all(8, 0),
            remove(8, 1),
            set_all(8, 0, &[0, 0]),
            read_all(8, 0),
            set_all(8, 0, &[1, 0]),
        ];
        let same: Vec<(Whole, i32)> = shown_on(2, &run)
            .concat()
            .into_iter()
            .filter(|(kind, _)| *kind == Whole::Same)
            .collect();
        assert_eq!(same, [(Whole::Same, 34)]);
    }

    #[test]
    fn readings() {
        let run = [
            read_all(8, 0),
            set_all(8, 0, &[0, 1]),
            operate(1, 0, &[(1, 0, 0)]),
            operate(2, 0, &[(0, -1, 0)]),
            operate(3, 0, &[(1, -2, 0)]),
            read_all(8, 0),
            read_all(8, 1),
            remove(8, 0),
            read_all(8, 0),
            set_all(8, 0, &[0, 1]),
        ];
        let shown = shown_on(2, &run);
        assert_eq!(shown[0], [(Whole::Read, 2)]);
        assert_eq!(shown[5], [(Whole::Both, 1), (Whole::Read, 2)]);
        assert_eq!(shown[6..].concat(), []);
    }
}
