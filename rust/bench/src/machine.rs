//! The machine, in words: no names of hosts, no paths.

use std::fs;
use std::thread;

/// What was measured where.
pub fn words(rounds: usize) -> String {
    let cores = thread::available_parallelism().map_or(1, |cores| cores.get());
    let plural = if cores == 1 { "" } else { "s" };
    format!(
        "Measured on {}, {cores} core{plural}, {} {}; {rounds} rounds.\n",
        model(),
        std::env::consts::OS,
        std::env::consts::ARCH
    )
}

fn model() -> String {
    let information = fs::read_to_string("/proc/cpuinfo").unwrap_or_default();
    let line = information.lines().find(|line| line.starts_with("model name"));
    let model = line.and_then(|line| line.split_once(':')).map(|(_, model)| model.trim());
    model.unwrap_or("a processor without a name").to_string()
}
