//! What is slow, and where.

use std::fmt;

use super::counts::Counts;
use super::printable;
use crate::size::LARGE;

#[derive(Clone, Copy)]
pub struct Slow {
    pub what: &'static str,
    pub screen: &'static str,
    /// Instructions of the whole call.
    pub count: f64,
}

/// The first of the slowest.
pub fn slowest_of(all: impl Iterator<Item = Slow>) -> Option<Slow> {
    all.reduce(|most, next| if next.count > most.count { next } else { most })
}

/// On a large screen.
impl Slow {
    pub fn a_cell(self) -> f64 {
        self.count / LARGE.cells() as f64
    }

    /// Without what a call without bytes costs.
    pub fn own_a_cell(self, counts: &Counts) -> f64 {
        let empty = printable::empty_call(counts, LARGE).unwrap_or(0.0);
        (self.count - empty) / LARGE.cells() as f64
    }
}

impl fmt::Display for Slow {
    fn fmt(&self, f: &mut fmt::Formatter) -> fmt::Result {
        write!(f, "{}, {}", self.what, self.screen)
    }
}
