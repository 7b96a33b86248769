//! Counts by their names, of this build and of the base.

use std::collections::BTreeMap;
use std::fs;

use crate::compared::short;
use crate::table::grouped;

/// What `keep` left when the base was measured.
const BASE: &str = include_str!("../../base-counts.txt");

const KEPT: &str = "bench/target/counts.txt";

/// Instructions, and the bytes, keys or cells that they were for.
#[derive(Clone, Copy)]
struct Count {
    instructions: u64,
    units: u64,
}

#[derive(Default)]
pub struct Counts(BTreeMap<String, Count>);

impl Counts {
    /// Of several counts by one name the largest stands.
    pub fn insert(&mut self, name: &str, instructions: u64, units: u64) {
        let count = Count {
            instructions,
            units,
        };
        let kept = self.0.entry(name.into()).or_insert(count);
        if instructions > kept.instructions {
            *kept = count;
        }
    }

    pub fn add(&mut self, other: Counts) {
        for (name, count) in other.0 {
            self.insert(&name, count.instructions, count.units);
        }
    }

    /// Instructions for each byte, key or cell.
    pub fn of(&self, name: &str) -> Option<f64> {
        let count = self.0.get(name)?;
        Some(count.instructions as f64 / count.units as f64)
    }

    /// In a file that is not tracked, so that two runs can be compared whole.
    pub fn keep(&self) -> Result<(), String> {
        fs::write(KEPT, self.text()).map_err(|error| format!("{KEPT}: {error}"))
    }

    fn text(&self) -> String {
        let line = |(name, count): (&String, &Count)| {
            format!("{name}\t{}\t{}\n", count.instructions, count.units)
        };
        self.0.iter().map(line).collect()
    }

    fn parse(text: &str) -> Counts {
        let mut counts = Counts::default();
        for line in text.lines() {
            let parts: Vec<&str> = line.split('\t').collect();
            let [name, instructions, units] = parts[..] else {
                continue;
            };
            if let (Ok(instructions), Ok(units)) = (instructions.parse(), units.parse()) {
                counts.insert(name, instructions, units);
            }
        }
        counts
    }
}

/// As a table shows it.
pub fn shown(count: Option<f64>) -> String {
    match count {
        None => "-".into(),
        Some(count) if count >= 1000.0 => grouped(count),
        Some(count) => short(count),
    }
}

/// The counts of this build beside the base's.
pub struct Both {
    pub base: Counts,
    pub now: Counts,
}

impl Both {
    pub fn beside_base(now: Counts) -> Both {
        Both {
            base: Counts::parse(BASE),
            now,
        }
    }
}
