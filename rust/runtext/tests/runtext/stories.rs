//! Stories, with answers and values as the program gives them.

use crate::files::generated;
use crate::{bad, good, replay, run, EXAMPLE};

const NO_ROOM: &str = "  values  not shown: the run file has no room for more readings";

fn story(arguments: &[&str], input: &[u8]) -> String {
    let program = replay();
    let program = ["story", "--program", program.to_str().expect("a plain path")];
    String::from_utf8(good(&[&program, arguments].concat(), input)).expect("a text")
}

#[test]
fn the_whole_example() {
    let wanted = "\
3 events

event 0: process 1 creates a set of 1 semaphore, mode rw-rw-rw-
  line    0 0 0 0
  answer  done (0), the set's identifier is 0
  values  set 0: 0

event 1: process 1 on set 0: take 1 from semaphore 0
  line    1 -1@0 0 0
  answer  asleep (-1) at operation 0: semaphore 0 has value 0, the call wants 1
  values  set 0: 0
  waits   set 0, semaphore 0: 1 for increase, 0 for zero

event 2: process 2 on set 0: add 1 to semaphore 0
  line    2 0 0 1 1=0
  answer  done (0), 1 look
  wakes   process 1: done (0)
  values  set 0: 0
";
    assert_eq!(story(&[], EXAMPLE.as_bytes()), wanted);
    let file = good(&["assemble"], EXAMPLE.as_bytes());
    assert_eq!(story(&["--run"], &file), wanted);
}

/// Every kind of event and ending, in a few words each.
#[test]
fn every_event_in_words() {
    let text = "create 2 by=1 mode=640\ncreate 9 by=1\noperate 1 set=0 0:+2/undo 1:0\n\
        operate 2 set=0 0:0/nowait\noperate 2 set=0 0:0/0x1\nsignal 2\noperate 2 set=0 0:0\n\
        query 0 by=1 number=0\nset 0 by=1 number=1 value=40000\nas 1 user=7 group=9\n\
        as 2 user=7 group=9\nas 1 user=0 group=9\nremove 0 by=1\nexit 1\n\
        query 0 by=9 number=0\nread-all 0 by=1\ncreate 1 by=1 mode=1000\n";
    let story = story(&[], text.as_bytes());
    for wanted in [
        "event 0: process 1 creates a set of 2 semaphores, mode rw-r-----\n",
        "answer  refused: EINVAL (22), the count isn't 1 to 8\n",
        "process 1 on set 0: add 2 to semaphore 0 (undo); wait for zero at semaphore 1\n",
        "  values  set 0: 2 0\n",
        "answer  refused: EAGAIN (11) at operation 0: semaphore 0 has value 2, the call wants zero; \
        it\n          would have to sleep, but nowait is given\n",
        "wait for zero at semaphore 0 (0x0001)\n",
        "  waits   set 0, semaphore 0: 0 for increase, 1 for zero\n",
        "event 5: signal process 2\n",
        "  wakes   process 2: EINTR (4), by the signal\n",
        "event 7: process 1 queries semaphore 0 of set 0\n",
        "answer  done (0), value 2, last process 1, waiting 0 for increase, 1 for zero\n",
        "event 8: process 1 sets semaphore 1 of set 0 to 40000\n",
        "answer  refused: ERANGE (34), the value isn't 0 to 32767\n",
        "event 9: process 1 acts as user 7, group 9\n  line    9 0 0 0\n  answer  done (0)\n",
        "event 10: process 2 acts as user 7, group 9\n  line    10 16 0 0\n  \
        answer  refused: EBUSY (16), the process is asleep\n",
        "event 12: process 1 (user 0, group 9) removes set 0\n",
        "  wakes   process 2: EIDRM (43), its set is removed\n",
        "event 13: process 1 (user 0, group 9) exits\n",
        "answer  done (0), 0 looks\n  values  no live set\n",
        "event 14: process 9 queries semaphore 0 of set 0\n",
        "refused: ESRCH (3), no such process\n",
        "event 15: process 1 (user 0, group 9) reads all of set 0\n",
        "refused: EINVAL (22), no live set has this identifier\n",
        "event 16: process 1 (user 0, group 9) creates a set of 1 semaphore, mode 1000\n",
        "answer  refused: EINVAL (22), the mode is above 777\n",
    ] {
        assert!(story.contains(wanted), "{wanted} is not in\n{story}");
    }
}

/// Each class that denies, and a removal. Nobody is user 0: who reads the values for the story has
/// its own numbers back, and is denied as before.
#[test]
fn who_asked_and_why_it_was_denied() {
    let text = (3..=8).map(|process| format!("as {process} user=11 group=1\n")).collect::<String>()
        + "as 1 user=7 group=9\nas 2 user=8 group=9\ncreate 1 by=1 mode=r-x-w----\n\
        set 0 by=1 number=0 value=1\nread-all 0 by=2\noperate 3 set=0 0:0 0:+1\n\
        remove 0 by=2\nset-all 0 by=2 values=5\nread-all 0 by=1\n";
    let wanted = "
event 9: process 1 (user 7, group 9) sets semaphore 0 of set 0 to 1
  line    9 13 0 0
  answer  refused: EACCES (13): the set is user 7's of group 9, and its owner may not alter (r-x)
  values  set 0: 0

event 10: process 2 (user 8, group 9) reads all of set 0
  line    10 13
  answer  refused: EACCES (13): the set is user 7's of group 9, and its group may not read (-w-)
  values  set 0: 0

event 11: process 3 (user 11, group 1) on set 0: wait for zero at semaphore 0; add 1 to semaphore 0
  line    11 13 0 0
  answer  refused: EACCES (13): the set is user 7's of group 9, and others may not read or alter
          (---)
  values  set 0: 0

event 12: process 2 (user 8, group 9) removes set 0
  line    12 1 0 0
  answer  refused: EPERM (1): the set is user 7's, and only its owner and user 0 may remove it
  values  set 0: 0
";
    let story = story(&[], text.as_bytes());
    assert!(story.contains(wanted), "{story}");
    let wanted = "  answer  done (0); semaphore 0: value 5\n  values  set 0: 5\n";
    assert!(story.ends_with(wanted), "{story}");
}

/// Where all sleep nobody can read; why the last one sleeps is known from before.
#[test]
fn all_processes_asleep() {
    let mut text = "create 1 by=1\n".to_string();
    for process in 1..=8 {
        text += &format!("operate {process} set=0 0:-1\n");
    }
    text += "read-all 0 by=8\nsignal 3\n";
    let wanted = "
event 8: process 8 on set 0: take 1 from semaphore 0
  line    8 -1@0 0 0
  answer  asleep (-1) at operation 0: semaphore 0 has value 0, the call wants 1
  values  not shown: all processes are asleep, and none can read

event 9: process 8 reads all of set 0
  line    9 16
  answer  refused: EBUSY (16), the process is asleep
  values  not shown: all processes are asleep, and none can read

event 10: signal process 3
  line    10 0 0 0 3=4
  answer  done (0)
  wakes   process 3: EINTR (4), by the signal
  values  set 0: 0
  waits   set 0, semaphore 0: 7 for increase, 0 for zero
";
    let story = story(&[], text.as_bytes());
    assert!(story.ends_with(wanted), "{story}");
}

#[test]
fn a_refused_file_is_told_in_words() {
    let wanted = "bad 202\nThe file is refused: its offsets or its end are not as the table says. \
        None of its events ran.\n";
    assert_eq!(story(&["--run"], &[0, 0, 0]), wanted);
}

#[test]
fn a_missing_program_says_what_builds_it() {
    let (status, words) = bad(&["story", "--program", "no/replay"], EXAMPLE.as_bytes());
    assert!(status == 1 && words.contains("`rt check`"), "{words}");
}

/// Process 3 is looked at behind 2 and before 4, on other values than those that the event leaves.
#[test]
fn operations_that_decided() {
    let text = "create 2 by=1\noperate 2 set=0 0:-1 1:+2\noperate 3 set=0 0:-1 1:+1 1:0/nowait\n\
        operate 4 set=0 0:-2 1:-2\noperate 5 set=0 0:+3\noperate 5 set=0 0:+2 0:+32766\n\
        operate 5 set=0 1:+32767/undo\noperate 6 set=0 1:-2\noperate 5 set=0 1:+1/undo\n";
    let wanted = "
event 4: process 5 on set 0: add 3 to semaphore 0
  line    4 0 0 3 2=0 3=11@2 4=0
  answer  done (0), 3 looks
  wakes   process 2: done (0)
  wakes   process 3: EAGAIN (11) at operation 2: semaphore 1 has value 3 after operation 1, the call
          wants zero; it stops now where nowait is given
  wakes   process 4: done (0)
  values  set 0: 0 0

event 5: process 5 on set 0: add 2 to semaphore 0; add 32766 to semaphore 0
  line    5 34@1 0 0
  answer  refused: ERANGE (34) at operation 1: semaphore 0 has value 2 after operation 0, plus 32766
          is above 32767
  values  set 0: 0 0
";
    let story = story(&[], text.as_bytes());
    assert!(story.contains(wanted), "{story}");
    let wanted = "
  line    8 34@0 0 0
  answer  refused: ERANGE (34) at operation 0: the process's undo adjustment of semaphore 1 would
          leave -32767 to 32767
";
    assert!(story.contains(wanted), "{story}");
}

/// A setting that wakes and one that is refused, and readings.
#[test]
fn all_values_at_once() {
    let text = "create 2 by=1\noperate 1 set=0 0:-1 1:-1\noperate 2 set=0 1:0 0:-2\n\
        set-all 0 by=3 values=1,2\nset-all 0 by=3 values=none\nread-all 0 by=1\n\
        read-all 1 by=1\n";
    let wanted = "
event 3: process 3 sets all of set 0 to 1, 2
  line    3 0 0 2 1=0
  answer  done (0), 2 looks
  wakes   process 1: done (0)
  values  set 0: 0 1
  waits   set 0, semaphore 1: 0 for increase, 1 for zero

event 4: process 3 sets all of set 0 to no values
  line    4 22 0 0
  answer  refused: EINVAL (22), no live set has this identifier, or it has another number of
          semaphores
  values  set 0: 0 1
  waits   set 0, semaphore 1: 0 for increase, 1 for zero

event 5: process 1 reads all of set 0
  line    5 0 0 0 0 1 0 1
  answer  done (0); semaphore 0: value 0; semaphore 1: value 1, waiting 0 for increase, 1 for zero
  values  set 0: 0 1
  waits   set 0, semaphore 1: 0 for increase, 1 for zero

event 6: process 1 reads all of set 1
  line    6 22
  answer  refused: EINVAL (22), no live set has this identifier
  values  set 0: 0 1
  waits   set 0, semaphore 1: 0 for increase, 1 for zero
";
    let story = story(&[], text.as_bytes());
    assert!(story.ends_with(wanted), "{story}");
}

/// Sleepers that give up, a time that goes back, and a call that may not wait.
#[test]
fn waits_that_end_by_the_clock() {
    let text = "create 1 by=1\noperate 1 set=0 wait=250 0:-1\noperate 2 set=0 wait=300 0:-1\n\
        time 300\ntime 299\noperate 3 set=0 wait=0 0:-1\n";
    let wanted = "
event 2: process 2 on set 0, waiting 300 ms at most: take 1 from semaphore 0
  line    2 -1@0 0 0
  answer  asleep (-1) at operation 0: semaphore 0 has value 0, the call wants 1
  until   300 ms
  values  set 0: 0
  waits   set 0, semaphore 0: 2 for increase, 0 for zero

event 3: the time is 300 ms
  line    3 0 0 0 1=11 2=11
  answer  done (0)
  wakes   process 1: EAGAIN (11): gave up waiting after 250 ms, over at 250 ms and told at 300 ms
  wakes   process 2: EAGAIN (11): gave up waiting after 300 ms
  values  set 0: 0

event 4: the time is 299 ms
  line    4 22 0 0
  answer  refused: EINVAL (22): it is before 300 ms, the time told last
  values  set 0: 0

event 5: process 3 on set 0, waiting 0 ms at most: take 1 from semaphore 0
  line    5 11@0 0 0
  answer  refused: EAGAIN (11) at operation 0: semaphore 0 has value 0, the call wants 1; it would
          have to sleep, but may not wait
  values  set 0: 0
";
    let story = story(&[], text.as_bytes());
    assert!(story.ends_with(wanted), "{story}");
}

/// A full file takes many runs. Its lines are those of one replay, every query of the file answers
/// with the value that the story shows, and each operation that decided is told with its value.
#[test]
fn a_full_file() {
    let file = generated(&["--kind", "mixed", "--seed", "3"]);
    let story = story(&["--run"], &file);
    let lines: Vec<&str> = story.lines().filter_map(|row| row.strip_prefix("  line    ")).collect();
    let replayed = String::from_utf8(run(&replay(), &[], &file).stdout).expect("lines");
    assert_eq!(lines, replayed.lines().skip(1).collect::<Vec<_>>());
    let queries: Vec<bool> = story.split("\n\n").filter_map(query_agrees).collect();
    assert!(queries.len() > 200 && queries.iter().all(|&agrees| agrees));
    let cut = story.matches(NO_ROOM).count();
    assert!(cut <= 4, "{cut} events of a full file without all values");
    let decided = told_with_reasons(&story);
    assert!(decided > 200, "{decided} operations that decided");
}

/// Each caller that is denied is told why, and nobody's numbers are lost by the readings.
#[test]
fn a_full_file_of_modes() {
    let story = story(&["--run"], &generated(&["--kind", "modes", "--seed", "3"]));
    for (name, wanted) in [("EACCES (13)", 100), ("EPERM (1)", 5)] {
        let denied = story.matches(name).count();
        let told = story.matches(&format!("{name}: the set is user ")).count();
        assert!(denied > wanted && told == denied, "{told} of {denied} with {name}");
    }
    told_with_reasons(&story);
}

#[test]
fn a_full_file_of_settings_and_readings() {
    let story = story(&["--run"], &generated(&["--kind", "whole", "--seed", "3"]));
    let readings: Vec<bool> = story.split("\n\n").filter_map(reading_agrees).collect();
    assert!(readings.len() > 200 && readings.iter().all(|&agrees| agrees));
    let decided = told_with_reasons(&story);
    assert!(decided > 200, "{decided} operations that decided");
}

/// Each sleeper that a time ended is told with how long it waited.
#[test]
fn a_full_file_of_waits() {
    let story = story(&["--run"], &generated(&["--kind", "timed", "--seed", "3"]));
    let lines = story.lines().filter(|row| row.starts_with("  line "));
    let ended = lines.flat_map(str::split_whitespace).filter(|word| word.ends_with("=11")).count();
    let told = story.matches("(11): gave up waiting after ").count();
    assert!(ended > 100 && told == ended, "{told} of {ended} gave up");
    let decided = told_with_reasons(&story);
    assert!(decided > 100, "{decided} operations that decided");
}

#[test]
fn operations_that_decided_in_long_arrays() {
    let story = story(&["--run"], &generated(&["--kind", "long", "--seed", "3"]));
    let decided = told_with_reasons(&story);
    assert!(decided > 100, "{decided} operations that decided");
    assert!(story.contains(" asleep (-1) at operation 31: semaphore "), "{story}");
}

/// How many operations decided, all of them told with a reason.
fn told_with_reasons(story: &str) -> usize {
    let reasons = |scene| {
        let (named, told) = named_and_told(scene);
        assert_eq!(named, told, "{scene}");
        told
    };
    story.split("\n\n").filter(|scene| !scene.contains(NO_ROOM)).map(reasons).sum()
}

/// How many operations the line of a scene names, and how many the story tells with a reason.
fn named_and_told(scene: &str) -> (usize, usize) {
    let line = scene.lines().find_map(|row| row.strip_prefix("  line ")).unwrap_or_default();
    let words: Vec<&str> = scene.split_whitespace().collect();
    let told = words.windows(3).filter(|three| three[..2] == ["at", "operation"]);
    (line.matches('@').count(), told.filter(|three| three[2].ends_with(':')).count())
}

/// Of a query that is done: does the story show its value among those of its set?
fn query_agrees(scene: &str) -> Option<bool> {
    let rest = scene.split_once(" queries semaphore ")?.1;
    let (number, rest) = rest.split_once(" of set ")?;
    let (identifier, rest) = rest.split_once('\n')?;
    let value = rest.split_once("done (0), value ")?.1.split(',').next()?;
    Some(values_of(rest, identifier)?.get(number.parse::<usize>().ok()?) == Some(&value))
}

/// Of a reading that is done: does it tell the values that the story shows of its set?
fn reading_agrees(scene: &str) -> Option<bool> {
    let (identifier, rest) = scene.split_once(" reads all of set ")?.1.split_once('\n')?;
    let answer = rest.split_once("done (0); ")?.1.split("\n  values ").next()?;
    let words: Vec<&str> = answer.split_whitespace().collect();
    let values = words.windows(2).filter(|pair| pair[0] == "value");
    let values: Vec<&str> = values.map(|pair| pair[1].trim_end_matches([',', ';'])).collect();
    Some(values_of(rest, identifier)? == values)
}

/// The values of a set that a scene shows.
fn values_of<'a>(scene: &'a str, identifier: &str) -> Option<Vec<&'a str>> {
    let set = format!("  values  set {identifier}: ");
    let values = scene.lines().find_map(|row| row.strip_prefix(&set))?;
    Some(values.split(' ').collect())
}
