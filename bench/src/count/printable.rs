//! The look at every character of the screen that each call begins with, by
//! calls without bytes on screens of two sizes.

use super::calls::counted;
use super::counts::Counts;
use crate::ours::Ours;
use crate::size::{Size, LARGE, SMALL};

pub fn run() {
    for size in [SMALL, LARGE] {
        let mut ours = Ours::open(size);
        counted(&name(size), 1, || ours.take(&[]));
    }
}

fn name(size: Size) -> String {
    format!("a call without bytes, {size}")
}

pub fn empty_call(counts: &Counts, size: Size) -> Option<f64> {
    counts.of(&name(size))
}

/// The rest of the call is the same in both sizes.
pub fn a_cell(counts: &Counts) -> Option<f64> {
    let (large, small) = (empty_call(counts, LARGE)?, empty_call(counts, SMALL)?);
    Some((large - small) / (LARGE.cells() - SMALL.cells()) as f64)
}
