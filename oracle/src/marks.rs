//! Marks: which cells were touched since they were last cleared.

use std::ops::Range;

use crate::screen::Screen;
use crate::variant::Variant;

impl Screen<'_> {
    /// Typing and the shifts 13 to 16 mark; nothing else does.
    pub fn mark(&mut self, cells: Range<usize>) {
        self.set_marks(cells, 1);
    }

    /// Only open, 27, 29 and 35 clear, and always all.
    pub fn clear_marks(&mut self) {
        self.marks.fill(0);
    }

    /// The buffer is C long; only a wrong variant takes another.
    pub fn set_marks(&mut self, cells: Range<usize>, value: u8) {
        let marks = self.marks.iter_mut().skip(cells.start);
        for mark in marks.take(cells.len()) {
            *mark = value;
        }
    }

    /// Whether a cell of the field is marked.
    pub fn modified(&self, field: &Range<usize>) -> bool {
        let mut marks = self.marks.iter().skip(field.start).take(field.len());
        marks.any(|&mark| mark != 0)
    }

    /// Moves characters within some cells, all of which are written and so
    /// marked. The variant is the one that leaves them unmarked.
    pub fn shift(&mut self, cells: Range<usize>, unmarked: Variant, moves: impl Fn(&mut [u8], u8)) {
        let before = match self.variant {
            Variant::ShiftMarksChanged => self.chars[cells.clone()].to_vec(),
            _ => Vec::new(),
        };
        moves(&mut self.chars[cells.clone()], b' ');
        match self.variant {
            Variant::ShiftMarksChanged => self.mark_changed(cells, &before),
            Variant::MarksMove => moves(&mut self.marks[cells], 0),
            Variant::ShiftMarksCursor => self.mark(self.at()..self.at() + 1),
            variant if variant == unmarked => {}
            _ => self.mark(cells),
        }
    }

    fn mark_changed(&mut self, cells: Range<usize>, before: &[u8]) {
        for (cell, &old) in cells.zip(before) {
            if self.chars[cell] != old {
                self.mark(cell..cell + 1);
            }
        }
    }
}
