//! Cuts a script that shows a difference down to a short one that still does.

use super::crop::{crop, Side};
use super::difference::Difference;
use super::numbers::{lower, numbers, with_numbers};
use super::shorten::{bytes, fill, leave_out, lower_each, with_bytes};
use crate::edition::Edition;
use crate::script::{Line, Opening};

/// Where a script still differs, if it does.
pub type Differs<'a> = &'a mut dyn FnMut(&[Line]) -> Option<Difference>;

/// Byte strings are parted into so many blocks at most: long ones that cannot
/// be shortened would cost a run for each byte.
const MOST_BLOCKS: usize = 512;

/// The shortest script found, and where it differs. Every step makes the
/// script smaller or plainer, so there is an end.
pub fn cut(script: Vec<Line>, found: Difference, differs: Differs) -> (Vec<Line>, Difference) {
    let mut cutter = Cutter {
        at_end: found.line > script.len(),
        script,
        found,
        differs,
        steps: 0,
    };
    loop {
        let before = cutter.steps;
        cutter.round();
        if cutter.steps == before {
            return (cutter.script, cutter.found);
        }
    }
}

struct Cutter<'a> {
    script: Vec<Line>,
    found: Difference,
    differs: Differs<'a>,
    /// Whether the difference is past the last line. One that is in a line
    /// must not give way to one in how the program ends, or the reverse.
    at_end: bool,
    steps: usize,
}

impl Cutter<'_> {
    fn round(&mut self) {
        self.drop_after();
        leave_out(self.script.clone(), 1, |left| self.attempt(left.to_vec()));
        // Before the bytes, since a crop takes many of them along.
        for index in 0..self.script.len() {
            self.crop(index);
        }
        for index in 0..self.script.len() {
            self.september(index);
            self.shorten(index);
            self.lower(index);
        }
    }

    /// Takes the script if it differs too.
    fn attempt(&mut self, script: Vec<Line>) -> bool {
        match (self.differs)(&script) {
            Some(found) if (found.line > script.len()) == self.at_end => {
                (self.script, self.found) = (script, found);
                self.steps += 1;
                true
            }
            _ => false,
        }
    }

    fn attempt_line(&mut self, index: usize, line: Line) -> bool {
        let mut script = self.script.clone();
        script[index] = line;
        self.attempt(script)
    }

    fn drop_after(&mut self) {
        if self.found.line < self.script.len() {
            self.attempt(self.script[..self.found.line].to_vec());
        }
    }

    /// Makes the screen smaller, from each side, if the line opens one.
    fn crop(&mut self, index: usize) {
        for side in Side::ALL {
            lower(side.length(&self.script[index]), |length| {
                let cropped = crop(&self.script, index, side, length);
                cropped.is_some_and(|script| self.attempt(script))
            });
        }
    }

    /// The plainer edition, if the line opens a screen in another.
    fn september(&mut self, index: usize) {
        let edition = Edition::September.number();
        match self.script[index] {
            Line::Open(open) if open.edition != edition => {
                self.attempt_line(index, Line::Open(Opening { edition, ..open }));
            }
            _ => {}
        }
    }

    fn shorten(&mut self, index: usize) {
        let line = self.script[index].clone();
        let Some((bytes, plain)) = bytes(&line) else {
            return;
        };
        let least = 1 + bytes.len() / MOST_BLOCKS;
        let mut fits = |left: &[u8]| self.attempt_line(index, with_bytes(&line, left));
        let left = leave_out(bytes.to_vec(), least, &mut fits);
        match plain {
            Some(plain) => fill(left, plain, least, fits),
            None => lower_each(left, fits),
        }
    }

    fn lower(&mut self, index: usize) {
        let mut line = numbers(&self.script[index]);
        for place in 0..line.len() {
            line[place] = lower(line[place], |number| {
                let mut line = line.clone();
                line[place] = number;
                self.attempt_line(index, with_numbers(&self.script[index], &line))
            });
        }
    }
}
