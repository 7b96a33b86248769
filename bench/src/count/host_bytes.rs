//! (f) Host bytes, in calls of several lengths.

use super::calls::counted;
use super::counts::{shown, Both, Counts};
use super::inputs::{Input, CALLS, INPUTS};
use super::sides::{Side, ALL, CORE_FOR_SPEED, OURS};
use crate::table::{Row, Table, Verdict};

pub fn run(sides: &[Side]) {
    for input in INPUTS {
        for side in sides.iter().filter(|side| (side.suits)(&input)) {
            for length in CALLS {
                take(&input, side, length);
            }
        }
    }
}

/// Where the side is not installed, nothing is counted.
fn take(input: &Input, side: &Side, length: usize) {
    let Some(mut taker) = (side.open)(input) else {
        return;
    };
    taker.take(&input.warm_up());
    let bytes = input.for_calls_of(length);
    counted(&name(input, side.name, length), bytes.len(), || {
        for call in bytes.chunks(length) {
            taker.take(call);
        }
    });
}

pub fn name(input: &Input, side: &str, length: usize) -> String {
    format!("{}, calls of {length}: {side}", input.name)
}

pub fn table(counts: &Both) -> Table {
    let mut rows = Vec::new();
    for input in INPUTS {
        rows.extend(row(&counts.base, &input, OURS, "ours, before"));
        for side in in_order() {
            rows.extend(row(&counts.now, &input, side.name, side.name));
        }
    }
    let calls = CALLS.map(|length| format!("calls of {length}"));
    let mut head = vec!["input", "side"];
    head.extend(calls.iter().map(String::as_str));
    let title = "(f) Host bytes, 80 by 24, instructions a byte";
    Table::new(title, &head, rows).with_notes(missing(&counts.now))
}

/// Ours, the two builds of the Rust core, then the others.
fn in_order() -> Vec<Side> {
    let mut sides = Vec::from(ALL);
    sides.insert(2, CORE_FOR_SPEED);
    sides
}

/// None where nothing was counted.
fn row(counts: &Counts, input: &Input, side: &str, label: &str) -> Option<Row> {
    let numbers = CALLS.map(|length| counts.of(&name(input, side, length)));
    numbers[0]?;
    let names = [input.name.to_string(), label.to_string()];
    Some(Row {
        cells: names.into_iter().chain(numbers.map(shown)).collect(),
        verdict: Verdict::NoAim,
    })
}

/// The peers that are not installed.
fn missing(now: &Counts) -> Vec<String> {
    let counted = |side: &Side| {
        let suited = INPUTS.iter().filter(|input| (side.suits)(input));
        suited
            .into_iter()
            .any(|input| now.of(&name(input, side.name, 64)).is_some())
    };
    let absent = ALL.iter().filter(|side| !counted(side));
    absent
        .map(|side| format!("{} is not counted: install {}.", side.name, side.package))
        .collect()
}
