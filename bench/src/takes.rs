//! All that takes bytes in calls.

use crate::c::libtelnet::Libtelnet;
use crate::c::libtsm::{self, Libtsm};
use crate::c::libvterm::{self, Libvterm};
use crate::ours::Ours;
use crate::rust_core::RustCore;
use crate::size::Size;

pub trait Takes {
    fn take(&mut self, input: &[u8]);
}

/// What shows text on a screen.
pub trait Shows: Takes {
    /// The character of a cell, 0 where nothing was written.
    fn cell(&mut self, line: usize, column: usize) -> u8;
}

/// A peer that does, from a package.
pub struct Shown {
    pub name: &'static str,
    pub package: &'static str,
    /// None where it is not installed.
    pub open: fn(Size) -> Option<Box<dyn Shows>>,
}

pub const LIBVTERM: Shown = Shown {
    name: "libvterm",
    package: libvterm::PACKAGE,
    open: |size| Some(Box::new(Libvterm::new(size)?)),
};

pub const LIBTSM: Shown = Shown {
    name: "libtsm",
    package: libtsm::PACKAGE,
    open: |size| Some(Box::new(Libtsm::new(size)?)),
};

impl Takes for Ours {
    fn take(&mut self, input: &[u8]) {
        Ours::take(self, input);
    }
}

impl Takes for RustCore {
    fn take(&mut self, input: &[u8]) {
        RustCore::take(self, input);
    }
}

impl Takes for Libtelnet {
    fn take(&mut self, input: &[u8]) {
        self.read(input);
    }
}

impl Takes for Libvterm {
    fn take(&mut self, input: &[u8]) {
        Libvterm::take(self, input);
    }
}

impl Shows for Libvterm {
    fn cell(&mut self, line: usize, column: usize) -> u8 {
        Libvterm::cell(self, line, column)
    }
}

impl Takes for Libtsm {
    fn take(&mut self, input: &[u8]) {
        Libtsm::take(self, input);
    }
}

impl Shows for Libtsm {
    fn cell(&mut self, line: usize, column: usize) -> u8 {
        Libtsm::cell(self, line, column)
    }
}
