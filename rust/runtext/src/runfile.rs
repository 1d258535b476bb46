//! The run file: a table of contents, then the bodies.

use crate::body;
use crate::event::Event;
use crate::refusal::Refusal;

/// The largest run file, in bytes.
pub const FILE_MAX: usize = 65_535;
/// Bytes of the head, and of one entry of the table.
pub const HEAD: usize = 2;
pub const ENTRY: usize = 4;

/// The bytes that an event takes in a file, its entry in the table included.
pub fn size(event: &Event) -> usize {
    ENTRY + body::encode(event).len()
}

/// The file of these events; they must fit into `FILE_MAX` bytes.
pub fn write(events: &[Event]) -> Vec<u8> {
    of_bodies(&events.iter().map(body::encode).collect::<Vec<Vec<u8>>>())
}

/// The file of events with these bodies; they must fit into `FILE_MAX` bytes.
pub fn of_bodies(bodies: &[Vec<u8>]) -> Vec<u8> {
    let mut file = (bodies.len() as u16).to_le_bytes().to_vec();
    let mut offset = HEAD + ENTRY * bodies.len();
    for body in bodies {
        file.extend_from_slice(&(offset as u16).to_le_bytes());
        file.extend_from_slice(&(body.len() as u16).to_le_bytes());
        offset += body.len();
    }
    file.extend(bodies.iter().flatten());
    assert!(file.len() <= FILE_MAX, "the caller saw to the size");
    file
}

/// The events of a good file. The table is checked first, then body after body.
pub fn read(file: &[u8]) -> Result<Vec<Event>, Refusal> {
    let table = table(file)?;
    let bodies = bodies(file, table)?;
    let mut events = Vec::with_capacity(bodies.len());
    for (position, body) in bodies.into_iter().enumerate() {
        let event = body::decode(body).map_err(|refusal| of_event(position, refusal))?;
        events.push(event);
    }
    Ok(events)
}

fn of_event(position: usize, refusal: Refusal) -> Refusal {
    Refusal { words: format!("event {position}: {}", refusal.words), ..refusal }
}

/// The table, where head and table are whole.
fn table(file: &[u8]) -> Result<&[u8], Refusal> {
    let refused = |words| Err(Refusal { code: 201, words });
    if file.len() > FILE_MAX {
        return refused(format!("over {FILE_MAX} bytes"));
    }
    if file.len() < HEAD {
        return refused(format!("the head is cut off: {} bytes of {HEAD}", file.len()));
    }
    let events = u16::from_le_bytes([file[0], file[1]]);
    let end = HEAD + ENTRY * usize::from(events);
    match file.get(HEAD..end) {
        Some(table) => Ok(table),
        None => refused(format!(
            "the table is cut off: {events} events need {end} bytes, the file has {}",
            file.len()
        )),
    }
}

/// The bodies, where each begins as the one before ends, and the file ends with the last.
fn bodies<'a>(file: &'a [u8], table: &[u8]) -> Result<Vec<&'a [u8]>, Refusal> {
    let refused = |words| Err(Refusal { code: 202, words });
    let mut ends = vec![HEAD + table.len()];
    for (position, entry) in table.chunks_exact(ENTRY).enumerate() {
        let offset = usize::from(u16::from_le_bytes([entry[0], entry[1]]));
        let length = usize::from(u16::from_le_bytes([entry[2], entry[3]]));
        let begin = ends[position];
        if offset != begin {
            return refused(format!("event {position}: its offset is {offset}, not {begin}"));
        }
        ends.push(begin + length);
    }
    let end = ends[ends.len() - 1];
    if end != file.len() {
        return refused(format!("the last body ends at {end}, the file at {}", file.len()));
    }
    Ok(ends.windows(2).map(|pair| &file[pair[0]..pair[1]]).collect())
}

#[cfg(test)]
mod tests {
    use super::*;

    fn words(file: &[u8]) -> String {
        read(file).expect_err("a bad file").to_string()
    }

    #[test]
    fn each_refusal_has_its_code_and_says_where() {
        let good =
            write(&[Event::Exit { process: 1 }, Event::Remove { process: 1, identifier: 4 }]);
        assert_eq!(words(&good[..1]), "bad 201: the head is cut off: 1 bytes of 2");
        let cut = "bad 201: the table is cut off: 2 events need 10 bytes, the file has 9";
        assert_eq!(words(&good[..9]), cut);
        assert_eq!(words(&[0; 65_536]), "bad 201: over 65535 bytes");
        assert_eq!(words(&good[..17]), "bad 202: the last body ends at 18, the file at 17");
        let edited = |place: usize, byte: u8| {
            let mut file = good.clone();
            file[place] = byte;
            words(&file)
        };
        assert_eq!(edited(6, 13), "bad 202: event 1: its offset is 13, not 12");
        assert_eq!(edited(12, 13), "bad 203: event 1: there is no kind 13");
        let length = "bad 204: event 1: a body of kind 7 has 8 bytes here, not 6";
        assert_eq!(edited(12, 7), length);
        assert_eq!(words(&[1, 0, 6, 0, 0, 0]), "bad 204: event 0: the body is empty");
    }

    /// The file with one body.
    fn alone(body: &[u8]) -> Vec<u8> {
        [&[1, 0, 6, 0, body.len() as u8, 0], body].concat()
    }

    #[test]
    fn the_length_goes_by_the_number() {
        for (body, wanted) in [
            (&[2, 1, 0, 0, 0, 0][..], 7),
            (&[2, 1, 0, 0, 0, 0, 1, 0], 13),
            (&[8], 11),
            (&[8, 1, 0, 0, 0, 0, 0], 11),
            (&[8, 1, 0, 0, 0, 0, 0, 0, 0, 0], 11),
            (&[8, 1, 0, 0, 0, 0, 0, 0, 0, 0, 0, 0], 11),
            (&[8, 1, 0, 0, 0, 0, 0, 0, 0, 0, 1, 0, 0, 0, 0, 0], 17),
            (&[8, 1, 0, 0, 0, 0, 0, 0, 0, 0, 255], 1_541),
            (&[9], 9),
            (&[9, 0, 0, 0, 0, 0, 0, 0], 9),
            (&[9, 0, 0, 0, 0, 0, 0, 0, 0, 0], 9),
            (&[10, 1, 0, 0, 0, 0], 7),
            (&[10, 1, 0, 0, 0, 0, 0, 0], 7),
            (&[10, 1, 0, 0, 0, 0, 2, 1, 0, 0, 0], 15),
            (&[10, 1, 0, 0, 0, 0, 255], 1_027),
            (&[11, 1, 0, 0, 0, 0, 0], 6),
            (&[11, 1, 0, 0, 0], 6),
            (&[12], 10),
            (&[12, 1, 0, 0, 0, 0, 0, 0, 0], 10),
            (&[12, 1, 0, 0, 0, 0, 0, 0, 0, 0, 0], 10),
        ] {
            let (kind, length) = (body[0], body.len());
            let wanted = format!("a body of kind {kind} has {wanted} bytes here, not {length}");
            assert_eq!(words(&alone(body)), format!("bad 204: event 0: {wanted}"));
        }
    }

    /// A create with two masks, and the others that had no caller.
    #[test]
    fn bodies_without_a_caller_have_the_wrong_length() {
        for body in [
            &[1, 1, 255, 255][..],
            &[3, 0, 0, 0, 0, 1, 0, 5, 0, 0, 0],
            &[4, 0, 0, 0, 0],
            &[7, 0, 0, 0, 0, 1, 0],
            &[10, 0, 0, 0, 0, 0],
            &[10, 0, 0, 0, 0, 2, 5, 0, 0, 0, 5, 0, 0, 0],
            &[11, 0, 0, 0, 0],
        ] {
            let refused = words(&alone(body));
            assert!(refused.starts_with("bad 204: event 0: a body of kind "), "{refused}");
        }
    }

    #[test]
    fn kinds_before_and_behind_are_unknown() {
        for kind in [0, 13, 255] {
            let wanted = format!("bad 203: event 0: there is no kind {kind}");
            assert_eq!(words(&alone(&[kind, 0, 0, 0, 0])), wanted);
        }
    }

    /// 10 + 65,535 is 9 modulo 65,536 only.
    #[test]
    fn sums_are_in_full_width() {
        let file = [2, 0, 10, 0, 255, 255, 9, 0, 3, 0, 5, 1];
        assert_eq!(words(&file), "bad 202: event 1: its offset is 9, not 65545");
    }

    #[test]
    fn no_events_are_two_zero_bytes() {
        assert_eq!(write(&[]), [0, 0]);
        assert_eq!(read(&[0, 0]), Ok(vec![]));
    }
}
