//! The two sizes of screen that are measured.

use std::fmt;

#[derive(Clone, Copy, Debug, PartialEq, Eq)]
pub struct Size {
    pub columns: usize,
    pub lines: usize,
}

pub const SMALL: Size = Size {
    columns: 80,
    lines: 24,
};
pub const LARGE: Size = Size {
    columns: 132,
    lines: 64,
};

/// How many times as many cells the large one has.
pub fn growth() -> f64 {
    LARGE.cells() as f64 / SMALL.cells() as f64
}

impl Size {
    /// C.
    pub fn cells(self) -> usize {
        self.columns * self.lines
    }

    /// The length of the shortest reply buffer.
    pub fn room(self) -> usize {
        host::terminal::reply_room(self.columns, self.lines)
    }
}

impl fmt::Display for Size {
    fn fmt(&self, f: &mut fmt::Formatter) -> fmt::Result {
        write!(f, "{} by {}", self.columns, self.lines)
    }
}
