//! Ours beside the oracle's core in Rust, in this build or in another.

use std::path::Path;
use std::process::Command;

use crate::ours::Ours;
use crate::rust_core::RustCore;
use crate::size::SMALL;
use crate::streams;
use crate::timing::{beside, Job};

pub const FORMS: &str = "forms";
pub const TEXT: &str = "text";

/// Asks another build of this program.
pub const WORD: &str = "--beside-core";

const INPUT: usize = 64 << 10;

/// In ns for a byte, and how many times as fast ours is.
pub struct Beside {
    pub ours: f64,
    pub core: f64,
    pub ratio: f64,
}

/// An error where the two screens do not end alike.
pub fn here(input: &str) -> Result<Beside, String> {
    let bytes = match input {
        FORMS => streams::forms(INPUT),
        _ => streams::text(INPUT, b"\r\n"),
    };
    let (mut ours, mut core) = (Ours::open(SMALL), RustCore::open(SMALL));
    let costs = beside(&mut [
        Job::new(bytes.len(), || ours.take(&bytes)),
        Job::new(bytes.len(), || core.take(&bytes)),
    ]);
    let ends = (&ours.chars, &ours.attrs, &ours.marks);
    if ends != (&core.chars, &core.attrs, &core.marks) {
        return Err(format!("{input}: the Rust core's screen ends otherwise"));
    }
    Ok(Beside {
        ours: costs.of(0),
        core: costs.of(1),
        ratio: costs.ratio(1, 0),
    })
}

/// Tells whoever asked.
pub fn tell(input: &str) -> Result<(), String> {
    let Beside { ours, core, ratio } = here(input)?;
    println!("{ours} {core} {ratio}");
    Ok(())
}

/// As the other build tells it.
pub fn by(program: &Path, input: &str) -> Result<Beside, String> {
    let failed = |why: &str| format!("{}: {why}", program.display());
    let output = Command::new(program).args([WORD, input]).output();
    let output = output.map_err(|error| failed(&error.to_string()))?;
    if !output.status.success() {
        return Err(failed(&String::from_utf8_lossy(&output.stderr)));
    }
    let told = String::from_utf8_lossy(&output.stdout);
    let numbers: Vec<f64> = told
        .split_whitespace()
        .filter_map(|word| word.parse().ok())
        .collect();
    let [ours, core, ratio] = numbers[..] else {
        return Err(failed("it told something else"));
    };
    Ok(Beside { ours, core, ratio })
}
