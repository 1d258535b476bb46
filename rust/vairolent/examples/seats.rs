//! A ground station's spin table has three seats and two screens, and planners share them by two
//! semaphores.

use vairolent::{Answer, Error, Host, Operation};

/// Takes a seat and a screen, or neither. With undo, a planner whose program ends gives both back.
const TAKE: [Operation; 2] = [Operation::new(0, -1).undo(), Operation::new(1, -1).undo()];

/// What each operation takes.
const TAKEN: [&str; 2] = ["seat", "screen"];

fn main() -> Result<(), Error> {
    let mut host = Host::new();
    // A set of two semaphores, for all to read and alter. Their values are how many are free.
    let table = host.create(1, 2, 0o666)?;
    let _ = host.set_all(1, table, &[3, 2])?; // nobody sleeps yet

    for planner in 1..=3 {
        match host.operate(planner, table, &TAKE)? {
            Answer::Done(_) => println!("planner {planner} has a seat and a screen"),
            Answer::Asleep { position } => {
                println!("planner {planner} sleeps until a {} is free", TAKEN[position]);
            }
        }
    }

    println!("the program of planner 1 dies, which wakes");
    for waking in host.exit(1)? {
        println!("  {waking}");
    }
    println!("the screens: {}", host.query(2, table, 1)?);

    // Planner 4 would rather do without than sleep.
    match host.operate(4, table, &TAKE.map(Operation::nowait)) {
        Ok(answer) => println!("planner 4: {answer}"),
        Err(error) => println!("planner 4 does without: {error}"),
    }
    Ok(())
}
