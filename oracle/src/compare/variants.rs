//! The wrong variants against the right program.

use std::fmt;
use std::io::{self, Write};

use super::arguments::Scripts;
use crate::generate;
use crate::replay::Replay;
use crate::script::Line;
use crate::variant::{Variant, ALL};
use crate::watch::Unwatched;

/// A variant, and where it was caught first.
struct Suspect {
    variant: Variant,
    name: &'static str,
    caught: Option<(u64, usize)>,
}

impl fmt::Display for Suspect {
    fn fmt(&self, f: &mut fmt::Formatter) -> fmt::Result {
        match self.caught {
            Some((seed, line)) => write!(f, "{} caught at seed {seed} line {line}", self.name),
            None => write!(f, "{} NOT CAUGHT", self.name),
        }
    }
}

/// Whether every variant is caught.
pub fn run(scripts: &Scripts, output: &mut impl Write) -> io::Result<bool> {
    let suspect = |&(variant, name, _): &(Variant, &'static str, &str)| Suspect {
        variant,
        name,
        caught: None,
    };
    let mut suspects: Vec<Suspect> = ALL.iter().map(suspect).collect();
    for seed in scripts.seeds.iter() {
        if suspects.iter().all(|suspect| suspect.caught.is_some()) {
            break;
        }
        catch(&mut suspects, seed, &generate::script(seed, scripts.calls));
    }
    for suspect in &suspects {
        writeln!(output, "{suspect}")?;
    }
    let caught = suspects.iter().filter(|suspect| suspect.caught.is_some());
    let (caught, all) = (caught.count(), suspects.len());
    writeln!(output, "{caught} of {all} variants caught")?;
    Ok(caught == all)
}

/// Runs those that are still free side by side, so that no answers are kept.
fn catch(suspects: &mut [Suspect], seed: u64, script: &[Line]) {
    let free = suspects.iter_mut().filter(|one| one.caught.is_none());
    let mut free: Vec<(&mut Suspect, Replay)> = free
        .map(|suspect| {
            let replay = Replay::new(suspect.variant);
            (suspect, replay)
        })
        .collect();
    let mut right = Replay::new(Variant::None);
    let (mut answer, mut other) = (String::new(), String::new());
    for (index, line) in script.iter().enumerate() {
        answer.clear();
        right.answer(line, &mut Unwatched, &mut answer);
        free.retain_mut(|(suspect, replay)| {
            other.clear();
            replay.answer(line, &mut Unwatched, &mut other);
            if other != answer {
                suspect.caught = Some((seed, index + 1));
            }
            suspect.caught.is_none()
        });
    }
}
