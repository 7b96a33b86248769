//! The table of counts, and what is missing in it.

use std::fmt;

use super::pad::STYLES;
use super::situation::Situation;
use super::Cover;
use crate::command::{code, error, parameter_count};
use crate::edition::Edition;
use crate::facilities::{class, governing};
use crate::pad::parameters::{admits, NUMBERS};
use crate::variant::Variant;

pub const PHASES: [&str; 10] = [
    "data", "iac", "will", "wont", "do", "dont", "sb", "sb-iac", "sub", "sub-iac",
];

/// Rows in the order in which they are printed.
#[derive(Default)]
struct Rows(Vec<(String, u64)>);

impl Rows {
    fn row(&mut self, label: impl Into<String>, count: u64) {
        self.0.push((label.into(), count));
    }

    /// One row for many values: the count of the least exercised one.
    fn least(&mut self, label: &str, counts: &[u64; 256], values: impl Iterator<Item = u8>) {
        let least = values
            .map(|value| (counts[usize::from(value)], value))
            .min();
        if let Some((count, value)) = least {
            self.row(format!("{label} (least: {value})"), count);
        }
    }

    /// One row for many values: the sum of their counts.
    fn sum(&mut self, label: &str, counts: &[u64; 256], values: impl Iterator<Item = u8>) {
        let sum = values.map(|value| counts[usize::from(value)]).sum();
        self.row(label, sum);
    }
}

fn known_codes() -> impl Iterator<Item = u8> {
    codes(Edition::September)
}

/// The codes that an edition's commands have.
fn codes(edition: Edition) -> impl Iterator<Item = u8> {
    (0..=255).filter(move |&code| count(edition, code).is_some())
}

/// How many parameters a code takes in an edition.
fn count(edition: Edition, code: u8) -> Option<usize> {
    parameter_count(edition.meaning(code))
}

/// What a label has before a code.
fn named(edition: Edition) -> &'static str {
    match edition {
        Edition::June => "June's code",
        Edition::September => "code",
    }
}

fn governed_codes() -> impl Iterator<Item = u8> {
    known_codes().filter(|&code| governing(code, Variant::None).is_some())
}

fn meaningless_keys() -> impl Iterator<Item = u8> {
    (0..=255).filter(|key| !matches!(key, 8 | 9 | 13 | 32..=143))
}

/// How many values a parameter takes.
fn choices(number: u8) -> usize {
    let admitted = (0..=255).filter(|&value| admits(number, value, Variant::None));
    admitted.count()
}

impl Cover {
    fn rows(&self) -> Rows {
        let mut rows = Rows::default();
        for edition in Edition::ALL.into_iter().rev() {
            self.command_rows(&mut rows, edition);
            self.error_rows(&mut rows, edition);
        }
        self.june_rows(&mut rows);
        self.refusal_rows(&mut rows);
        self.key_rows(&mut rows);
        self.pad_rows(&mut rows);
        self.facility_rows(&mut rows);
        for (name, count) in &self.phases {
            rows.row(format!("host call that ended in phase {name}"), *count);
        }
        for (situation, label) in Situation::ALL {
            rows.row(*label, self.situations[*situation as usize]);
        }
        rows
    }

    fn command_rows(&self, rows: &mut Rows, edition: Edition) {
        let name = named(edition);
        let suppress = edition.code(code::SUPPRESS_PROTECTION).unwrap_or(0);
        for code in codes(edition).filter(|&code| code != suppress) {
            let count = self.executed[edition as usize][usize::from(code)];
            rows.row(format!("{name} {code} executed"), count);
        }
        for verb in 251..=254 {
            let count = self.suppress[edition as usize][verb];
            rows.row(format!("{name} {suppress} {verb} executed"), count);
        }
    }

    fn error_rows(&self, rows: &mut Rows, edition: Edition) {
        let name = named(edition);
        let by = |number: u8| &self.errors[edition as usize][usize::from(number)];
        let unknown = (0..=255).filter(|&code| count(edition, code).is_none());
        let label = match edition {
            Edition::June => "ERROR 2 by each code unknown in June",
            Edition::September => "ERROR 2 by each unknown code",
        };
        rows.least(label, by(error::UNKNOWN_CODE), unknown);
        rows.row(format!("ERROR 3 by {name} 5"), by(error::OFF_SCREEN)[5]);
        for code in codes(edition) {
            let count = by(error::TOO_MANY)[usize::from(code)];
            rows.row(format!("ERROR 9 by {name} {code}"), count);
        }
        for code in codes(edition).filter(|&code| count(edition, code) != Some(0)) {
            let count = by(error::TOO_FEW)[usize::from(code)];
            rows.row(format!("ERROR 10 by {name} {code}"), count);
        }
        rows.row(format!("ERROR 10 by no {name}"), by(error::TOO_FEW)[0]);
        let first = edition.code(code::FORMAT_DATA).unwrap_or(0);
        for code in first..first + 3 {
            let count = by(error::BAD_VALUE)[usize::from(code)];
            rows.row(format!("ERROR 11 by {name} {code}"), count);
        }
        let count = by(error::BAD_MAP)[usize::from(first)];
        rows.row(format!("ERROR 12 by {name} {first}"), count);
    }

    fn june_rows(&self, rows: &mut Rows) {
        let errors = &self.errors[Edition::June as usize][usize::from(error::NOT_AGREED)];
        let governed = |&code: &u8| governing(Edition::June.meaning(code), Variant::None).is_some();
        for code in codes(Edition::June).filter(governed) {
            let count = errors[usize::from(code)];
            rows.row(format!("ERROR 1 by June's code {code}"), count);
        }
    }

    fn refusal_rows(&self, rows: &mut Rows) {
        for number in [1, 12, 2] {
            rows.row(format!("open refused {number}"), self.open_refused[number]);
        }
        for number in [1, 2, 3, 4, 11, 5] {
            rows.row(format!("host refused {number}"), self.host_refused[number]);
        }
        for number in 1..=11 {
            let count = self.key_refused[number].iter().sum();
            rows.row(format!("key refused {number}"), count);
        }
    }

    fn key_rows(&self, rows: &mut Rows) {
        let refused = &self.key_refused;
        for key in [8, 9, 13, 127] {
            rows.row(format!("key {key} taken"), self.key_taken[key]);
        }
        rows.least("each key 32 to 126 taken", &self.key_taken, 32..=126);
        rows.least("each key 128 to 143 taken", &self.key_taken, 128..=143);
        rows.least(
            "each key without meaning refused 9",
            &refused[9],
            meaningless_keys(),
        );
        rows.sum("keys 32 to 126 refused 6", &refused[6], 32..=126);
        rows.sum("keys 32 to 126 refused 7", &refused[7], 32..=126);
        rows.sum("key 127 refused 6", &refused[6], 127..=127);
        rows.sum("key 13 refused 8", &refused[8], 13..=13);
        rows.least("each key 128 to 143 refused 8", &refused[8], 128..=143);
    }

    fn facility_rows(&self, rows: &mut Rows) {
        let counts = &self.facilities;
        for code in governed_codes() {
            let place = usize::from(code);
            let september = &self.errors[Edition::September as usize];
            let errors = september[usize::from(error::NOT_AGREED)][place];
            rows.row(format!("ERROR 1 by code {code}"), errors);
            let label = format!("ERROR 1 by code {code} after DONT 20 took its facility");
            rows.row(label, counts.lost_error[place]);
            let label = format!("code {code} executed, its bit alone agreed");
            rows.row(label, counts.alone[place]);
            let label = format!("ERROR 1 by code {code}, its bit alone missing");
            rows.row(label, counts.missed[place]);
        }
        for code in known_codes().filter(|&code| governing(code, Variant::None).is_none()) {
            let label = format!("code {code} executed while nothing is agreed");
            rows.row(label, counts.unagreed[usize::from(code)]);
        }
        for code in known_codes().filter(|&code| !class(code).is_empty()) {
            let place = usize::from(code);
            let received = self.executed[Edition::September as usize][place];
            rows.row(format!("code {code} received"), received);
            rows.row(format!("code {code} that narrows"), counts.narrowed[place]);
            let label = format!("code {code} that narrows and widens a map");
            rows.row(label, counts.replaced[place]);
            rows.row(format!("code {code} with an ERROR"), counts.error[place]);
        }
    }

    fn pad_rows(&self, rows: &mut Rows) {
        let pad = &self.pad;
        for bit in 0..7 {
            let label = format!("key forwarded by bit {} of parameter 3", 1 << bit);
            rows.row(label, pad.forwarded[bit]);
        }
        for number in [16, 17, 18, 129] {
            let label = format!("edit key of parameter {number}");
            rows.row(label, pad.edited[number]);
        }
        for (kind, counts) in ["character", "line"].into_iter().zip(&pad.signals) {
            for (style, &count) in STYLES.into_iter().zip(counts) {
                rows.row(format!("{kind} delete signalled by {style}"), count);
            }
        }
        for bit in 0..8 {
            let label = format!("echo silenced by bit {} of parameter 20", 1 << bit);
            rows.row(label, pad.silenced[bit]);
        }
        let settable = NUMBERS.into_iter().filter(|&number| choices(number) > 1);
        let limited = NUMBERS.into_iter().filter(|&number| choices(number) < 256);
        rows.least("each parameter set", &pad.set, settable);
        rows.least("each parameter given a bad value", &pad.bad, limited);
        rows.least("each key 0 to 127 taken by the line", &pad.keys, 0..=127);
    }

    /// The labels whose count is zero.
    pub fn missing(&self) -> Vec<String> {
        let rows = self.rows().0.into_iter();
        rows.filter(|row| row.1 == 0).map(|row| row.0).collect()
    }
}

impl fmt::Display for Cover {
    fn fmt(&self, f: &mut fmt::Formatter) -> fmt::Result {
        for (label, count) in self.rows().0 {
            writeln!(f, "{count:9}  {label}")?;
        }
        let missing = self.missing();
        if !missing.is_empty() {
            writeln!(f, "missing: {}", missing.join("; "))?;
        }
        Ok(())
    }
}
