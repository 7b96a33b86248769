//! 29 to 35: spaces in place of characters.

use std::ops::Range;

use crate::command::code;
use crate::screen::Screen;
use crate::variant::Variant;

impl Screen<'_> {
    pub fn erase(&mut self, code: u8) {
        let (at, line, field) = (self.at(), self.line(), self.field(self.at()));
        match code {
            code::ERASE_SCREEN => return self.erase_screen(),
            code::ERASE_LINE => self.erase_cells(line.clone()),
            code::ERASE_FIELD => self.erase_cells(field.clone()),
            code::ERASE_REST_OF_SCREEN => self.erase_cells(at..self.cells()),
            code::ERASE_REST_OF_LINE => self.erase_cells(at..line.end),
            code::ERASE_REST_OF_FIELD => self.erase_cells(at..field.end),
            _ => return self.erase_unprotected(),
        }
        match (code, self.variant) {
            (code::ERASE_LINE, Variant::Cursor30LineStart) => self.go(line.start),
            (code::ERASE_FIELD, Variant::Cursor31FieldStart) => self.go(field.start),
            _ => {}
        }
    }

    /// Attributes too, so no field is left.
    fn erase_screen(&mut self) {
        self.chars.fill(b' ');
        if !self.varies(Variant::EraseScreenKeepsAttributes) {
            self.attrs.fill(0);
        }
        if !self.varies(Variant::EraseScreenKeepsMarks) {
            self.clear_marks();
        }
        self.go(0);
    }

    /// Guarded cells are spared.
    fn erase_cells(&mut self, cells: Range<usize>) {
        for cell in cells {
            let spared = match self.variant {
                Variant::EraseSparesProtected => self.protected(cell),
                _ => self.guarded(cell),
            };
            if !spared {
                self.chars[cell] = b' ';
                self.mark_erased(cell);
            }
        }
    }

    /// 30 to 34 neither mark nor clear, but for wrong variants.
    fn mark_erased(&mut self, cell: usize) {
        match self.variant {
            Variant::EraseMarks => self.mark(cell..cell + 1),
            Variant::EraseClears => self.set_marks(cell..cell + 1, 0),
            _ => {}
        }
    }

    /// Protected cells are spared, suppression or not.
    fn erase_unprotected(&mut self) {
        for cell in 0..self.cells() {
            let spared = match self.variant {
                Variant::Erase35Suppressed => self.guarded(cell),
                _ => self.protected(cell),
            };
            if !spared {
                self.chars[cell] = b' ';
            }
            if !spared && self.varies(Variant::Erase35ClearsErased) {
                self.set_marks(cell..cell + 1, 0);
            }
        }
        match self.variant {
            Variant::Erase35KeepsMarks | Variant::Erase35ClearsErased => {}
            _ => self.clear_marks(),
        }
        match self.variant {
            Variant::Cursor35Stays => {}
            Variant::Cursor35Origin => self.go(0),
            _ => self.go(self.first_start()),
        }
    }
}
