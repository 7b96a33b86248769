//! Whole lines on screens whose guards stand just where they count or just
//! where they do not.

use super::bytes::subnegotiation;
use super::Generator;
use crate::command::code;
use crate::reply::DET;
use crate::telnet::Verb;

/// What a guard is, and what is none.
const GUARD: u8 = 8;
const OPEN: [u8; 5] = [0, 0, 16, 24, 1];

impl Generator {
    /// No guard from some line's start on, or a single one, perhaps
    /// suppressed; then a line command there or nearby.
    pub fn whole_lines(&mut self, bytes: &mut Vec<u8>) {
        let line = self.rng.below(usize::from(self.size.n));
        let m = usize::from(self.size.m);
        let start = line * m;
        self.open_from(bytes, start);
        if self.rng.once_in(2) {
            self.guard_near(bytes, start);
        }
        if self.rng.once_in(5) {
            let verb = self.rng.pick(&[Verb::Do, Verb::Dont]);
            self.det(bytes, code::SUPPRESS_PROTECTION, &[verb.byte()]);
        }
        if self.rng.once_in(2) {
            self.text(bytes);
        }
        let x = self.column();
        self.go_to(bytes, start + x);
        for _ in 0..self.rng.within(1, 2) {
            self.line_command(bytes);
        }
        if self.rng.once_in(3) {
            self.command(bytes);
        }
    }

    fn column(&mut self) -> usize {
        let m = usize::from(self.size.m);
        match self.rng.below(3) {
            0 => 0,
            1 => m - 1,
            _ => self.rng.below(m),
        }
    }

    /// In one piece or in two of different attributes.
    fn open_from(&mut self, bytes: &mut Vec<u8>, start: usize) {
        let left = self.size.cells() - start;
        let first = match self.rng.once_in(2) {
            true => left,
            false => self.rng.within(1, left),
        };
        let map = self.rng.pick(&OPEN);
        self.format_cells(bytes, start, map, first);
        if first < left {
            let map = self.rng.pick(&OPEN);
            self.format_cells(bytes, start + first, map, left - first);
        }
    }

    /// The cell before the line, one in it, the screen's last, or any.
    fn guard_near(&mut self, bytes: &mut Vec<u8>, start: usize) {
        let cells = self.size.cells();
        let cell = match self.rng.below(4) {
            0 => start.saturating_sub(1),
            1 => start + self.column(),
            2 => cells - 1,
            _ => self.rng.below(cells),
        };
        self.format_cells(bytes, cell, GUARD, 1);
    }

    fn format_cells(&mut self, bytes: &mut Vec<u8>, cell: usize, map: u8, count: usize) {
        let [high, low] = (count as u16).to_be_bytes();
        self.go_to(bytes, cell);
        self.det(bytes, code::FORMAT_DATA, &[map, 0, high, low]);
    }

    fn go_to(&mut self, bytes: &mut Vec<u8>, cell: usize) {
        let at = self.size.position(cell);
        subnegotiation(bytes, DET, &[code::MOVE_CURSOR, at.x.0, at.y.0]);
    }

    fn line_command(&mut self, bytes: &mut Vec<u8>) {
        let code = self.rng.pick(&[code::LINE_INSERT, code::LINE_DELETE]);
        subnegotiation(bytes, DET, &[code]);
    }
}
