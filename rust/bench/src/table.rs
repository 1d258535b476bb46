//! The measurements as Markdown. The first file is the one without events: what it takes is the
//! start of the program, and is taken off where a column says so.

use crate::measured::{Measured, Side, MEMORY_RUNS};
use crate::sample::{have_processor_time, times, Times};

/// `least_kib` is the peak memory of a program that does nothing, measured in the same way.
pub fn tables(files: &[Measured], least_kib: Option<u64>) -> String {
    let sides = || files.iter().flat_map(|file| &file.sides);
    let by_processor = sides().all(|side| have_processor_time(&side.samples));
    let clock = if by_processor {
        "Processor time of the whole process as the kernel counts it,"
    } else {
        "Time from start to end,"
    };
    let mut text = format!(
        "{clock} in microseconds: best, median.\n\
        \"Work\" is the best less that of the file without events: the start of the program is \
        taken off.\nA ratio is replay to second.\n\n"
    );
    text += &time_table(files, by_processor);
    text += &format!(
        "\nInstructions of one run as callgrind counts them. Peak resident memory, the largest of \
        {MEMORY_RUNS} runs, in KiB;\na program that does nothing has {}.\n\n",
        shown(least_kib.map(|kib| kib as f64))
    );
    text += &count_table(files);
    if sides().any(|side| side.instructions.is_none()) {
        text += "\nInstructions are missing: valgrind isn't there, or can't run the program.\n";
    }
    if sides().any(|side| side.peak_kib.is_none()) {
        text += "\nPeak memory is missing: GNU time isn't there.\n";
    }
    text
}

fn time_table(files: &[Measured], by_processor: bool) -> String {
    let mut text = head(&[
        "File",
        "Events",
        "Bytes",
        "replay",
        "second",
        "Ratio",
        "replay, work",
        "second, work",
        "Ratio, work",
    ]);
    let of = |side: &Side| times(&side.samples, by_processor);
    for (index, file) in files.iter().enumerate() {
        let [replay, second] = [of(&file.sides[0]), of(&file.sides[1])];
        let work = |side: usize, times: Times| {
            Some(times.best - of(&files[0].sides[side]).best).filter(|_| index > 0)
        };
        let (replay_work, second_work) = (work(0, replay), work(1, second));
        text += &row(&[
            file.name.clone(),
            shown(Some(file.events as f64)),
            shown(Some(file.bytes as f64)),
            format!("{:.0}, {:.0}", replay.best, replay.median),
            format!("{:.0}, {:.0}", second.best, second.median),
            ratio(Some(replay.best), Some(second.best)),
            shown(replay_work),
            shown(second_work),
            ratio(replay_work, second_work),
        ]);
    }
    text
}

fn count_table(files: &[Measured]) -> String {
    let mut text = head(&[
        "File",
        "replay, instructions",
        "second, instructions",
        "Ratio",
        "Ratio, work",
        "replay, KiB",
        "second, KiB",
    ]);
    let of = |side: &Side| side.instructions.map(|number| number as f64);
    for (index, file) in files.iter().enumerate() {
        let [replay, second] = [of(&file.sides[0]), of(&file.sides[1])];
        let work = |side: usize, number: Option<f64>| {
            Some(number? - of(&files[0].sides[side])?).filter(|_| index > 0)
        };
        let kib = |side: usize| shown(file.sides[side].peak_kib.map(|number| number as f64));
        text += &row(&[
            file.name.clone(),
            shown(replay),
            shown(second),
            ratio(replay, second),
            ratio(work(0, replay), work(1, second)),
            kib(0),
            kib(1),
        ]);
    }
    text
}

/// A whole number in groups of three digits; a dash where there is none.
fn shown(number: Option<f64>) -> String {
    let number = match number {
        Some(number) => format!("{number:.0}"),
        None => return "-".to_string(),
    };
    let mut text = String::new();
    for (index, digit) in number.chars().enumerate() {
        let behind = number.len() - index;
        if behind % 3 == 0 && text.ends_with(|last: char| last.is_ascii_digit()) {
            text.push(',');
        }
        text.push(digit);
    }
    text
}

fn ratio(replay: Option<f64>, second: Option<f64>) -> String {
    match (replay, second) {
        (Some(replay), Some(second)) if second > 0.0 => format!("{:.2}", replay / second),
        _ => "-".to_string(),
    }
}

/// The head of a table, with numbers set to the right.
fn head(titles: &[&str]) -> String {
    let rule = format!("|---|{}\n", "---:|".repeat(titles.len() - 1));
    format!("| {} |\n{rule}", titles.join(" | "))
}

fn row(cells: &[String]) -> String {
    format!("| {} |\n", cells.join(" | "))
}

#[cfg(test)]
mod tests {
    use super::*;

    #[test]
    fn cells() {
        assert_eq!(head(&["File", "Events"]), "| File | Events |\n|---|---:|\n");
        assert_eq!(row(&[shown(Some(1.6)), shown(None)]), "| 2 | - |\n");
        assert_eq!(shown(Some(-123.0)), "-123");
        assert_eq!(shown(Some(1_234_567.0)), "1,234,567");
        assert_eq!(ratio(Some(1.0), Some(3.0)), "0.33");
        assert_eq!(ratio(Some(1.0), Some(0.0)), "-");
    }
}
