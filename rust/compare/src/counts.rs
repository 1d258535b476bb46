//! Counts of what came, and the rows in which they are shown.

use std::collections::BTreeMap;
use std::fmt::Display;

pub type Counts<K> = BTreeMap<K, u64>;

/// Width of the table's first column.
pub const TITLE: usize = 30;

/// What is counted in one row of the table, its name, and the numbers that have to come.
pub type Row<K> = (K, &'static str, &'static [i32]);

pub fn count_each<K: Ord>(counts: &mut Counts<K>, keys: impl IntoIterator<Item = K>) {
    for key in keys {
        *counts.entry(key).or_default() += 1;
    }
}

pub fn add_all<K: Ord>(counts: &mut Counts<K>, others: Counts<K>) {
    for (key, count) in others {
        *counts.entry(key).or_default() += count;
    }
}

/// Some rows: their names, and what came.
pub fn rows<'a, K: Copy + PartialEq>(
    counts: &'a Counts<(K, i32)>,
    rows: &'a [Row<K>],
) -> impl Iterator<Item = (String, String)> + 'a {
    rows.iter().map(|(key, name, _)| (name.to_string(), entries(of(counts, *key))))
}

/// All that never came of some rows.
pub fn lacking_rows<K: Copy + Ord>(counts: &Counts<(K, i32)>, rows: &[Row<K>]) -> Vec<String> {
    let mut missing = Vec::new();
    for (key, name, numbers) in rows {
        let lacking = lacking(counts, *key, numbers.iter().copied());
        missing.extend(lacking.map(|number| format!("{name} {number}")));
    }
    missing
}

/// Those of the wanted numbers that never came with one event or row.
pub fn lacking<'a, K: Copy + Ord + 'a, N: Copy + Ord>(
    counts: &'a Counts<(K, N)>,
    key: K,
    wanted: impl Iterator<Item = N> + 'a,
) -> impl Iterator<Item = N> + 'a {
    wanted.filter(move |number| !counts.contains_key(&(key, *number)))
}

/// The counts of one event or row.
pub fn of<K: PartialEq, N>(counts: &Counts<(K, N)>, wanted: K) -> impl Iterator<Item = (&N, &u64)> {
    counts
        .iter()
        .filter(move |((key, _), _)| *key == wanted)
        .map(|((_, number), count)| (number, count))
}

/// Each code or number with how often it came, some to a line.
pub fn entries<'a, N: Display + 'a>(counts: impl Iterator<Item = (&'a N, &'a u64)>) -> String {
    let entries: Vec<String> =
        counts.map(|(number, count)| format!("{number:>3}: {count:<7} ")).collect();
    let lines: Vec<String> = entries.chunks(6).map(|some| some.concat()).collect();
    lines.join(&format!("\n{:TITLE$}", ""))
}
