//! A replay as a story. Every answer in it is the program's own, and every value is, or is a sum of
//! such a value and the amounts of operations.

use std::ops::Range;

use crate::answer::Answer;
use crate::codes;
use crate::count::counted;
use crate::event::Event;
use crate::known::Known;
use crate::program::{Program, Replay};
use crate::questions;
use crate::runfile;
use crate::scene::{Scene, Set};

/// The story of a run file, good or bad.
pub fn tell(program: &Program, file: &[u8]) -> Result<String, String> {
    let lines = match program.replay(file)? {
        Replay::Refused(code) => return Ok(refused(code)),
        Replay::Lines(lines) => lines,
    };
    let events = runfile::read(file).map_err(|refusal| {
        format!("the program accepts the file, but by the rules it is {refusal}")
    })?;
    let mut scenes = scenes(events, lines)?;
    ask(program, &mut scenes)?;
    let mut story = counted(scenes.len() as u32, "event") + "\n";
    let mut known = Known::default();
    let mut before: &[Set] = &[];
    for (position, scene) in scenes.iter().enumerate() {
        story += "\n";
        story += &scene.tell(position, &known, before);
        known.note(&scene.event, &scene.answer);
        story += &scene.tell_after(&known);
        before = &scene.sets;
    }
    Ok(story)
}

fn refused(code: u16) -> String {
    format!("bad {code}\nThe file is refused: {}. None of its events ran.\n", codes::why_bad(code))
}

fn scenes(events: Vec<Event>, lines: Vec<String>) -> Result<Vec<Scene>, String> {
    if events.len() != lines.len() {
        return Err(format!("{} events, but {} lines", events.len(), lines.len()));
    }
    events.into_iter().zip(lines).map(|(event, line)| Scene::read(event, line)).collect()
}

/// Asks the program for every live set behind every event, in as many runs as that takes.
fn ask(program: &Program, scenes: &mut [Scene]) -> Result<(), String> {
    let events: Vec<Event> = scenes.iter().map(|scene| scene.event.clone()).collect();
    let answers: Vec<Answer> = scenes.iter().map(|scene| scene.answer.clone()).collect();
    let questions = questions::all(&events, &answers);
    for part in questions::parts(&events, &questions) {
        let extended = questions::extended(&events, &questions, part.clone());
        match program.replay(&runfile::write(&extended))? {
            Replay::Refused(code) => return Err(format!("bad {code} for a run with readings")),
            Replay::Lines(lines) => note(scenes, &questions, part, &lines)?,
        }
    }
    Ok(())
}

/// Takes the answers to a part's questions; every other answer has to be what it was without them.
fn note(
    scenes: &mut [Scene],
    questions: &[Vec<Event>],
    part: Range<usize>,
    lines: &[String],
) -> Result<(), String> {
    let mut lines = lines.iter();
    for (position, scene) in scenes[..part.end].iter_mut().enumerate() {
        if lines.next() != Some(&scene.line) {
            return Err(format!("event {position} has another answer where readings are put in"));
        }
        if part.contains(&position) {
            for question in &questions[position] {
                scene.note(question, lines.next())?;
            }
        }
    }
    match lines.next() {
        Some(line) => Err(format!("a line too many: {line}")),
        None => Ok(()),
    }
}

#[cfg(test)]
mod tests {
    use super::*;
    use crate::parse;

    /// A create and a query, and the lines of a run with questions behind the create: a reading by
    /// a process that is user 0 for it.
    fn noted(lines: &[&str]) -> Result<Vec<Scene>, String> {
        let event = |line: &str| parse::events(line.as_bytes()).expect("an event").remove(0);
        let events = vec![event("create 1 by=1"), event("query 0 by=1 number=0")];
        let mut scenes = scenes(events, vec!["0 0 0".to_string(), "0 0 0 0 0".to_string()])?;
        let questions = ["as 1 user=0 group=9", "read-all 0 by=1", "as 1 user=7 group=9"];
        let questions = [questions.map(event).to_vec(), vec![]];
        let lines: Vec<String> = lines.iter().map(|line| line.to_string()).collect();
        note(&mut scenes, &questions, 0..1, &lines)?;
        Ok(scenes)
    }

    #[test]
    fn answers_to_questions_are_kept() {
        let scenes = noted(&["0 0 0", "0 0 0", "0 7 1 0", "0 0 0"]).expect("the same answers");
        let told = |scene: &Scene| scene.tell_after(&Known::default());
        let wanted =
            "  values  set 0: 7\n  waits   set 0, semaphore 0: 1 for increase, 0 for zero\n";
        assert_eq!(told(&scenes[0]), wanted);
        assert_eq!(told(&scenes[1]), "  values  no live set\n");
    }

    /// The program may not answer the events of the run otherwise because of the questions, nor
    /// refuse these.
    #[test]
    fn other_answers_are_noticed() {
        assert!(noted(&["0 1 0", "0 0 0", "0 7 1 0", "0 0 0"]).is_err());
        assert!(noted(&["0 0 0", "16 0 0", "0 7 1 0", "0 0 0"]).is_err());
        assert!(noted(&["0 0 0", "0 0 0", "13", "0 0 0"]).is_err());
        assert!(noted(&["0 0 0", "0 0 0", "0 0 0", "0 0 0"]).is_err());
        assert!(noted(&["0 0 0", "0 0 0", "0 7 1 0"]).is_err());
        assert!(noted(&["0 0 0", "0 0 0", "0 7 1 0", "0 0 0", "0 0 0 0 0"]).is_err());
    }
}
