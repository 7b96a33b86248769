//! 13 and 14: whole lines moved. Attributes stay, and so does the cursor.

use std::ops::Range;

use crate::screen::Screen;
use crate::size::X;
use crate::variant::Variant;

impl Screen<'_> {
    /// 13: a line of spaces at the cursor's; the last line is lost.
    pub fn line_insert(&mut self) {
        let Some(mut moved) = self.moved_lines() else {
            return;
        };
        let m = usize::from(self.size.m);
        if self.varies(Variant::LineInsertBelow) && moved.len() > m {
            moved.start += m;
        }
        let rotates = self.varies(Variant::LineInsertRotates);
        self.shift_lines(moved.clone(), |cells, vacant| {
            cells.rotate_right(m);
            if !rotates {
                cells[..m].fill(vacant);
            }
        });
        match self.variant {
            Variant::LinesTakeAttributes => self.attrs[moved].rotate_right(m),
            Variant::LinesClearAttributes => self.attrs[moved][..m].fill(0),
            _ => {}
        }
    }

    /// 14: the cursor's line is lost; a line of spaces at the end.
    pub fn line_delete(&mut self) {
        let Some(moved) = self.moved_lines() else {
            return;
        };
        let m = usize::from(self.size.m);
        let variant = self.variant;
        self.shift_lines(moved.clone(), |cells, vacant| {
            let last = cells.len() - m;
            match variant {
                Variant::LineDeleteKeepsLast => cells.copy_within(m.., 0),
                _ => cells.rotate_left(m),
            }
            let kept = [Variant::LineDeleteKeepsLast, Variant::LineDeleteRotates];
            if !kept.contains(&variant) {
                cells[last..].fill(vacant);
            }
        });
        match self.variant {
            Variant::LinesTakeAttributes => self.attrs[moved].rotate_left(m),
            Variant::LinesClearAttributes => self.attrs[moved.end - m..].fill(0),
            _ => {}
        }
    }

    fn shift_lines(&mut self, moved: Range<usize>, moves: impl Fn(&mut [u8], u8)) {
        self.shift(moved, Variant::LinesUnmarked, moves);
    }

    /// From the start of the cursor's line to the screen's end; none where
    /// any of these cells is guarded.
    fn moved_lines(&mut self) -> Option<Range<usize>> {
        let moved = self.line().start..self.cells();
        let tested = match self.variant {
            Variant::LinesMindCursorOn => self.at()..moved.end,
            Variant::LinesMindCursorCell => self.at()..self.at() + 1,
            Variant::LinesMindOneLine => self.line(),
            Variant::LinesMindScreen => 0..moved.end,
            Variant::LinesMindNothing => 0..0,
            _ => moved.clone(),
        };
        let stopped = |cell| match self.variant {
            Variant::LinesMindProtected => self.protected(cell),
            _ => self.guarded(cell),
        };
        if tested.into_iter().any(stopped) {
            if self.varies(Variant::StoppedMarks) {
                self.mark(moved);
            }
            return None;
        }
        if self.varies(Variant::LinesGoToStart) {
            self.cursor.x = X(0);
        }
        match self.varies(Variant::LinesNotLast) && moved.len() == usize::from(self.size.m) {
            true => None,
            false => Some(moved),
        }
    }
}
