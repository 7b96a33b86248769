//! Counts what agreed.

use std::fmt;

use crate::script::Line;

#[derive(Clone, Copy, Debug, Default, PartialEq, Eq)]
pub struct Tally {
    pub open: u64,
    pub host: u64,
    pub key: u64,
    pub lines: u64,
}

impl Tally {
    pub fn add(&mut self, script: &[Line]) {
        for line in script {
            self.lines += 1;
            match line {
                Line::Open(_) => self.open += 1,
                Line::Host(..) => self.host += 1,
                Line::Key(..) => self.key += 1,
                _ => {}
            }
        }
    }

    pub fn calls(&self) -> u64 {
        self.open + self.host + self.key
    }
}

impl fmt::Display for Tally {
    fn fmt(&self, f: &mut fmt::Formatter) -> fmt::Result {
        let Tally {
            open,
            host,
            key,
            lines,
        } = self;
        let calls = self.calls();
        write!(
            f,
            "{calls} calls ({open} open, {host} host, {key} key) and {lines} lines"
        )
    }
}
