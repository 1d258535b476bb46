//! Why an operation decided: the value it was judged on, and what it wanted there.

use crate::operation::{added, Operation, UNDO};

/// The largest value of a semaphore, and the largest magnitude of an undo adjustment.
const MAX: i32 = 32_767;

/// Why the operation at this position decided with this code. An array is judged in order, so its
/// earlier operations are added to the value that the semaphore had before it. Nothing is said
/// where that isn't known, or doesn't lead to the code.
pub fn why(
    code: i32,
    position: usize,
    operations: &[Operation],
    before: impl Fn(u16) -> Option<i32>,
) -> Option<String> {
    let operation = operations.get(position)?;
    let earlier = added(&operations[..position], operation.number);
    let value = before(operation.number)? + earlier;
    let mut has = format!("semaphore {} has value {value}", operation.number);
    if earlier != 0 {
        has += &format!(" after operation {}", position - 1);
    }
    in_words(code, operation, value, &has)
}

fn in_words(code: i32, operation: &Operation, value: i32, has: &str) -> Option<String> {
    let Operation { number, amount, flags } = *operation;
    let magnitude = amount.unsigned_abs();
    let sum = value + i32::from(amount);
    match code {
        -1 | 11 if amount == 0 && value != 0 => Some(format!("{has}, the call wants zero")),
        -1 | 11 if sum < 0 => Some(format!("{has}, the call wants {magnitude}")),
        34 if sum > MAX => Some(format!("{has}, plus {magnitude} is above {MAX}")),
        34 if sum >= 0 && flags & UNDO != 0 => Some(format!(
            "the process's undo adjustment of semaphore {number} would leave -{MAX} to {MAX}"
        )),
        _ => None,
    }
}

#[cfg(test)]
mod tests {
    use super::*;
    use crate::event::Event;
    use crate::parse;

    /// Why an array decided, written as in a text; the semaphores from 0 on had these values.
    fn told(code: i32, position: usize, array: &str, values: &[i32]) -> String {
        let events = parse::events(format!("operate 1 set=0 {array}").as_bytes());
        let operations = match &events.expect("an event")[..] {
            [Event::Operate { operations, .. }] => operations.clone(),
            other => panic!("{other:?}"),
        };
        let before = |number: u16| values.get(usize::from(number)).copied();
        why(code, position, &operations, before).unwrap_or_default()
    }

    #[test]
    fn each_way_to_decide() {
        for code in [-1, 11] {
            let wants = told(code, 0, "0:-1", &[0]);
            assert_eq!(wants, "semaphore 0 has value 0, the call wants 1");
            let wants = told(code, 1, "0:+1 1:0", &[0, 3]);
            assert_eq!(wants, "semaphore 1 has value 3, the call wants zero");
            let wants = told(code, 0, "0:-32768", &[32_767]);
            assert_eq!(wants, "semaphore 0 has value 32767, the call wants 32768");
        }
        let above = "semaphore 0 has value 32766, plus 5 is above 32767";
        assert_eq!(told(34, 0, "0:+5", &[32_766]), above);
        assert_eq!(told(34, 0, "0:+5/undo", &[32_766]), above);
        let leaves = "the process's undo adjustment of semaphore 1 would leave -32767 to 32767";
        assert_eq!(told(34, 1, "0:-1 1:+5/undo", &[1, 32_762]), leaves);
        assert_eq!(told(34, 0, "1:-5/undo", &[0, 5]), leaves);
    }

    /// Only those on the same semaphore count, and only those in front.
    #[test]
    fn earlier_operations_are_added() {
        let wants = "semaphore 0 has value 3 after operation 2, the call wants 4";
        assert_eq!(told(-1, 3, "0:+1 1:+9 0:+2 0:-4 0:+8", &[0, 0]), wants);
        let wants = "semaphore 0 has value 0 after operation 0, the call wants 1";
        assert_eq!(told(11, 1, "0:-1 0:-1", &[1]), wants);
        let above = "semaphore 0 has value 32767 after operation 0, plus 1 is above 32767";
        assert_eq!(told(34, 1, "0:+1 0:+1", &[32_766]), above);
        let wants = "semaphore 0 has value 2, the call wants zero";
        assert_eq!(told(-1, 2, "0:+1 0:-1 0:0", &[2]), wants);
    }

    #[test]
    fn the_last_of_thirty_two() {
        let array = format!("1:-2 {}0:+32767", "0:+1 ".repeat(30));
        let above = "semaphore 0 has value 61 after operation 30, plus 32767 is above 32767";
        assert_eq!(told(34, 31, &array, &[31, 2]), above);
        let wants = "semaphore 1 has value 0, the call wants 2";
        assert_eq!(told(-1, 0, &array, &[31, 0]), wants);
        assert_eq!(told(34, 32, &array, &[31, 2]), "");
    }

    #[test]
    fn nothing_is_said_without_the_value() {
        assert_eq!(told(-1, 1, "0:0 1:-1", &[0]), "");
        assert_eq!(told(-1, 1, "0:-1", &[0]), "");
    }

    #[test]
    fn nothing_is_said_where_the_value_leads_elsewhere() {
        for (code, array, value) in [
            (-1, "0:-1", 1),
            (-1, "0:0", 0),
            (-1, "0:+1", 32_767),
            (11, "0:-1", 1),
            (34, "0:+1", 32_766),
            (34, "0:-1/undo", 0),
            (0, "0:-1", 0),
        ] {
            assert_eq!(told(code, 0, array, &[value]), "", "{code} {array} at {value}");
        }
    }
}
