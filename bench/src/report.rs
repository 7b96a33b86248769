//! What is written at the end.

use crate::machine;
use crate::table::{Table, Verdict};

const HOW: &str = include_str!("how.md");

/// All tables, one after the other.
pub fn tables(tables: &[Table]) -> String {
    let tables: Vec<String> = tables.iter().map(Table::to_string).collect();
    tables.join("\n")
}

/// How many aims are met.
pub fn summary(tables: &[Table]) -> String {
    let count = |verdict| {
        tables
            .iter()
            .map(|table| table.count(verdict))
            .sum::<usize>()
    };
    let (met, missed) = (count(Verdict::Met), count(Verdict::Missed));
    let open = match count(Verdict::NotMeasured) {
        0 => String::new(),
        rows => format!(", {rows} rows not measured"),
    };
    format!("{met} aims met, {missed} missed{open}")
}

/// `RESULTS.md`.
pub fn results(all: &[Table]) -> String {
    let machine = machine::describe();
    let (summary, tables) = (summary(all), tables(all));
    let head = format!("The last run of `bench/run`: {summary}. Machine: {machine}.");
    format!("# Results\n\n{head}\n\n{tables}\n{HOW}")
}
