//! Where another program parts from the right one.

use std::fmt;

/// The first line that is answered otherwise, counted from 1. A line past the
/// script's last one stands for its end.
#[derive(Clone, Debug, PartialEq, Eq)]
pub struct Difference {
    pub line: usize,
    pub right: String,
    pub other: String,
}

impl fmt::Display for Difference {
    fn fmt(&self, f: &mut fmt::Formatter) -> fmt::Result {
        writeln!(f, "line {} differs", self.line)?;
        writeln!(f, "oracle: {}", self.right)?;
        write!(f, "other:  {}", self.other)
    }
}
