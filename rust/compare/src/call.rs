//! An event that has a caller: what the checks ask of it, whatever its kind.

use second::event::OPERATION;
use second::Event;

use crate::class::Asked;

#[derive(Clone, Copy)]
pub struct Call<'a> {
    /// The number of its kind.
    pub kind: u8,
    pub event: Event<'a>,
    pub process: u8,
    /// The set that it names, if it names one.
    pub identifier: Option<i32>,
    /// What it asks of that set. An operate without operations asks nothing.
    pub asked: Option<Asked>,
}

impl<'a> Call<'a> {
    pub fn of(event: Event<'a>) -> Option<Call<'a>> {
        let call =
            |kind, process, identifier, asked| Call { kind, event, process, identifier, asked };
        let asks = |kind, process, identifier, asked| call(kind, process, Some(identifier), asked);
        Some(match event {
            Event::Create { process, .. } => call(1, process, None, None),
            Event::Operate { process, identifier, wait, operations } => {
                let kind = if wait.is_some() { 8 } else { 2 };
                asks(kind, process, identifier, asked_by(operations))
            }
            Event::SetValue { process, identifier, .. } => {
                asks(3, process, identifier, Some(Asked::Alter))
            }
            Event::Remove { process, identifier } => {
                asks(4, process, identifier, Some(Asked::Remove))
            }
            Event::Query { process, identifier, .. } => {
                asks(7, process, identifier, Some(Asked::Read))
            }
            Event::SetAll { process, identifier, .. } => {
                asks(10, process, identifier, Some(Asked::Alter))
            }
            Event::ReadAll { process, identifier } => {
                asks(11, process, identifier, Some(Asked::Read))
            }
            Event::ActAs { process, .. } => call(12, process, None, None),
            Event::Signal { .. } | Event::Exit { .. } | Event::Clock { .. } => return None,
        })
    }
}

/// What an array asks: each amount of 0 reads, every other one alters.
pub fn asked_by(operations: &[u8]) -> Option<Asked> {
    let mut amounts = operations.chunks_exact(OPERATION).map(|operation| &operation[2..4]);
    let reads = amounts.clone().any(|amount| amount == [0, 0]);
    let alters = amounts.any(|amount| amount != [0, 0]);
    match (reads, alters) {
        (true, true) => Some(Asked::Both),
        (true, false) => Some(Asked::Read),
        (false, true) => Some(Asked::Alter),
        (false, false) => None,
    }
}

#[cfg(test)]
mod tests {
    use super::*;
    use crate::events::EVENTS;
    use crate::random::Rng;
    use second::event::operate;

    #[test]
    fn kinds_and_callers() {
        let mut rng = Rng::new(3, 0);
        for kind in EVENTS {
            let body = (kind.small)(&mut rng);
            let call = Call::of(Event::decode(&body).expect("a good body"));
            let has_caller = ![5, 6, 9].contains(&kind.number);
            let found = call.map(|call| (call.kind, call.process));
            assert_eq!(found, has_caller.then_some((kind.number, 1)), "{}", kind.name);
        }
    }

    #[test]
    fn arrays_ask() {
        let asked = |amounts: &[i16]| {
            let array: Vec<_> = amounts.iter().map(|&amount| (0, amount, 0)).collect();
            asked_by(&operate(1, 0, &array)[7..])
        };
        assert_eq!(asked(&[]), None);
        assert_eq!(asked(&[0, 0]), Some(Asked::Read));
        assert_eq!(asked(&[256, -1]), Some(Asked::Alter));
        assert_eq!(asked(&[1, 0]), Some(Asked::Both));
    }
}
