//! Cells, fields and guards, and what the host writes on them.

use std::ops::Range;

use crate::class;
use crate::size::{Position, Size};
use crate::variant::Variant;

/// Bits 4 and 3 of an attribute byte.
pub mod protection {
    pub const NONE: u8 = 0;
    pub const PROTECTED: u8 = 1;
    pub const ALPHABETIC: u8 = 2;
    pub const NUMERIC: u8 = 3;

    pub fn of(attr: u8) -> u8 {
        attr >> 3 & 3
    }
}

pub fn protected(attr: u8, variant: Variant) -> bool {
    match variant {
        Variant::OnlyNoneUnprotected => protection::of(attr) != protection::NONE,
        _ => protection::of(attr) == protection::PROTECTED,
    }
}

pub fn guarded(attr: u8, suppressed: bool, variant: Variant) -> bool {
    let in_effect = !suppressed || variant == Variant::GuardIgnoresSuppression;
    protected(attr, variant) && in_effect
}

/// The screen as one call works on it. Its cursor is on it, its buffers
/// are C long and its characters are all 32 to 126.
pub struct Screen<'a> {
    pub size: Size,
    pub cursor: Position,
    pub suppressed: bool,
    pub chars: &'a mut [u8],
    pub attrs: &'a mut [u8],
    /// 1 for a cell that was typed in or shifted, else 0.
    pub marks: &'a mut [u8],
    pub variant: Variant,
}

impl Screen<'_> {
    pub fn varies(&self, variant: Variant) -> bool {
        self.variant == variant
    }

    pub fn cells(&self) -> usize {
        self.size.cells()
    }

    pub fn protected(&self, cell: usize) -> bool {
        protected(self.attrs[cell], self.variant)
    }

    pub fn guarded(&self, cell: usize) -> bool {
        guarded(self.attrs[cell], self.suppressed, self.variant)
    }

    /// The cells of the cursor's line.
    pub fn line(&self) -> Range<usize> {
        let m = usize::from(self.size.m);
        let start = usize::from(self.cursor.y.0) * m;
        start..start + m
    }

    /// The field that the cell is in.
    pub fn field(&self, cell: usize) -> Range<usize> {
        let mut start = cell;
        while start > 0 && self.joined(start - 1) {
            start -= 1;
        }
        start..self.field_end(cell)
    }

    /// All fields in reading order.
    pub fn fields(&self) -> impl Iterator<Item = Range<usize>> + '_ {
        let mut start = 0;
        std::iter::from_fn(move || {
            let field = (start < self.cells()).then(|| start..self.field_end(start))?;
            start = field.end;
            Some(field)
        })
    }

    /// Suppression has no say in what is an unprotected field.
    pub fn unprotected_fields(&self) -> impl Iterator<Item = Range<usize>> + '_ {
        self.fields().filter(|field| !self.protected(field.start))
    }

    fn field_end(&self, cell: usize) -> usize {
        let mut last = cell;
        while last + 1 < self.cells() && self.joined(last) {
            last += 1;
        }
        last + 1
    }

    /// Whether the cell and the next are in one field. Only attributes
    /// count: a line's end is no boundary.
    fn joined(&self, cell: usize) -> bool {
        let (this, next) = (self.attrs[cell], self.attrs[cell + 1]);
        match self.variant {
            Variant::FieldByProtection => protection::of(this) == protection::of(next),
            Variant::FieldsEndAtLineEnd if self.ends_line(cell) => false,
            _ => this == next,
        }
    }

    fn ends_line(&self, cell: usize) -> bool {
        self.size.position(cell).x.0 + 1 == self.size.m
    }

    /// From the cursor to the end of its field or line, the nearer; while
    /// suppressed, fields do not count.
    pub fn edit_span(&self) -> Range<usize> {
        let line_end = self.line().end;
        if self.suppressed && !self.varies(Variant::SpanIgnoresSuppression) {
            return self.at()..line_end;
        }
        self.at()..line_end.min(self.field_end(self.at()))
    }

    /// A data byte: a character, one of the three controls, or nothing.
    pub fn text(&mut self, byte: u8) {
        match byte {
            32..=126 => self.write(byte),
            13 => self.carriage_return(),
            10 => self.line_feed(),
            8 => self.backspace(),
            _ => {}
        }
    }

    /// A host character. Its class is not tested.
    pub fn write(&mut self, byte: u8) {
        let cell = self.at();
        if self.guarded(cell) || self.host_class_fails(cell, byte) {
            if self.varies(Variant::DroppedAdvances) {
                self.advance();
            }
            return;
        }
        self.chars[cell] = byte;
        if self.varies(Variant::HostMarks) {
            self.mark(cell..cell + 1);
        }
        self.advance();
    }

    fn host_class_fails(&self, cell: usize, byte: u8) -> bool {
        self.varies(Variant::ClassOnHost)
            && !self.suppressed
            && !class::takes(protection::of(self.attrs[cell]), byte, self.variant)
    }

    /// To the next cell; at the last one the cursor stays.
    fn advance(&mut self) {
        let next = self.at() + 1;
        if next < self.cells() {
            self.go(next);
        } else if self.varies(Variant::HostLastWraps) {
            self.go(0);
        }
    }

    /// 15: a space at the cursor; the span's last character is lost.
    pub fn insert(&mut self) {
        if let Some(span) = self.shifted(Variant::InsertToLineEnd) {
            self.shift(span, Variant::InsertUnmarked, |cells, vacant| {
                cells.rotate_right(1);
                cells[0] = vacant;
            });
        }
    }

    /// 16: the cursor's character is lost; a space at the span's end.
    pub fn delete(&mut self, unmarked: Variant) {
        let keeps = self.varies(Variant::DeleteKeepsLast);
        if let Some(span) = self.shifted(Variant::DeleteToLineEnd) {
            self.shift(span, unmarked, |cells, vacant| {
                let last = cells.len() - 1;
                cells.copy_within(1.., 0);
                if !keeps {
                    cells[last] = vacant;
                }
            });
        }
    }

    /// The cells that 15 and 16 shift: none on a guarded cell.
    fn shifted(&mut self, to_line_end: Variant) -> Option<Range<usize>> {
        if self.guarded(self.at()) && !self.varies(Variant::ShiftOnGuarded) {
            if self.varies(Variant::StoppedMarks) {
                self.mark(self.edit_span());
            }
            return None;
        }
        if self.varies(to_line_end) {
            return Some(self.at()..self.line().end);
        }
        Some(self.edit_span())
    }
}
