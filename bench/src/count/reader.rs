//! (g) The Telnet reader alone, in one call.

use super::calls::counted;
use super::counts::{shown, Both, Counts};
use super::host_bytes;
use super::inputs::{Input, FORMS, TEXT};
use super::sides::{LIBTELNET, MEMCHR, OURS};
use crate::c::tally::tally;
use crate::table::{Row, Table, Verdict};

const WHOLE: usize = 65536;

pub fn run() {
    for input in [TEXT, FORMS] {
        let bytes = input.whole();
        counted(&name(&input), bytes.len(), || _ = tally(&bytes));
    }
}

fn name(input: &Input) -> String {
    format!("reader, {}: {OURS}", input.name)
}

/// Ours, a byte.
pub fn ours(counts: &Counts, input: &Input) -> Option<f64> {
    counts.of(&name(input))
}

/// A peer's, a byte.
pub fn beside(counts: &Counts, input: &Input, side: &str) -> Option<f64> {
    counts.of(&host_bytes::name(input, side, WHOLE))
}

pub fn table(counts: &Both) -> Table {
    let rows = [TEXT, FORMS].iter().map(|input| row(counts, input));
    let head = [
        "input",
        "ours, before",
        "ours",
        "libtelnet",
        "memchr",
        "memcpy",
    ];
    let title = "(g) The Telnet reader alone, one call of 65536, instructions a byte";
    Table::new(title, &head, rows.collect())
}

fn row(counts: &Both, input: &Input) -> Row {
    let peer = |side| beside(&counts.now, input, side);
    let (before, now) = (ours(&counts.base, input), ours(&counts.now, input));
    let numbers = [before, now, peer(LIBTELNET), peer(MEMCHR), peer("memcpy")];
    Row {
        cells: [input.name.to_string()]
            .into_iter()
            .chain(numbers.map(shown))
            .collect(),
        verdict: Verdict::NoAim,
    }
}
