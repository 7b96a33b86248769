//! Where the cursor goes.

use crate::screen::Screen;
use crate::size::{Position, Size, X, Y};
use crate::variant::Variant;

impl Screen<'_> {
    /// The cursor's cell.
    pub fn at(&self) -> usize {
        self.size.cell(self.cursor)
    }

    pub fn go(&mut self, cell: usize) {
        self.cursor = self.size.position(cell);
    }

    fn last_x(&self) -> u8 {
        self.size.m - 1
    }

    fn last_y(&self) -> u8 {
        self.size.n - 1
    }

    pub fn carriage_return(&mut self) {
        self.cursor.x = X(0);
        if self.varies(Variant::CrNextLine) {
            self.down();
        }
    }

    pub fn line_feed(&mut self) {
        self.line_down(Variant::LfWraps);
        if self.varies(Variant::LfLineStart) {
            self.cursor.x = X(0);
        }
    }

    fn line_down(&mut self, wraps: Variant) {
        if self.cursor.y.0 < self.last_y() {
            self.cursor.y.0 += 1;
        } else if self.varies(wraps) {
            self.cursor.y = Y(0);
        }
    }

    pub fn backspace(&mut self) {
        if self.varies(Variant::BsWraps) {
            return self.go(self.at().saturating_sub(1));
        }
        self.left();
    }

    /// 5: each of x and y limited to the screen.
    pub fn move_to(&mut self, x: X, y: Y) {
        if x.0 <= self.last_x() || !self.varies(Variant::MoveXNotLimited) {
            self.cursor.x = X(x.0.min(self.last_x()));
        }
        if y.0 <= self.last_y() || !self.varies(Variant::MoveYNotLimited) {
            self.cursor.y = Y(y.0.min(self.last_y()));
        }
    }

    /// 6: over the last line the screen goes on at its first.
    pub fn skip_to_line(&mut self, y: Y) {
        self.cursor.y = match self.variant {
            Variant::SkipLineLimited => Y(y.0.min(self.last_y())),
            Variant::SkipLineStays if y.0 > self.last_y() => self.cursor.y,
            _ => Y(y.0 % self.size.n),
        };
        if self.varies(Variant::SkipLineStart) {
            self.cursor.x = X(0);
        }
    }

    /// 7: past the line's end x goes round in the line, and y moves by as
    /// many lines as N goes into x, round the screen.
    pub fn skip_to_char(&mut self, x: X) {
        let Size { m, n } = self.size;
        let lines = match self.variant {
            Variant::SkipCharKeepsLine => 0,
            Variant::SkipCharByWidth => x.0 / m,
            Variant::SkipCharOneLine => 1,
            _ => x.0 / n,
        };
        if x.0 > self.last_x() || self.varies(Variant::SkipCharAlwaysMoves) {
            let y = u16::from(self.cursor.y.0) + u16::from(lines);
            self.cursor.y = match self.variant {
                Variant::SkipCharStopsAtLast => Y(y.min(self.last_y().into()) as u8),
                _ => Y((y % u16::from(n)) as u8),
            };
        }
        self.cursor.x = match self.variant {
            Variant::SkipCharLimited => X(x.0.min(self.last_x())),
            _ => X(x.0 % m),
        };
    }

    /// 8
    pub fn up(&mut self) {
        self.cursor.y = Y(self.cursor.y.0.saturating_sub(1));
    }

    /// 9
    pub fn down(&mut self) {
        self.line_down(Variant::DownWraps);
    }

    /// 10
    pub fn left(&mut self) {
        self.cursor.x = X(self.cursor.x.0.saturating_sub(1));
    }

    /// 11
    pub fn right(&mut self) {
        if self.varies(Variant::RightWraps) {
            return self.go((self.at() + 1).min(self.cells() - 1));
        }
        self.cursor.x = X((self.cursor.x.0 + 1).min(self.last_x()));
    }

    /// 12: the first unprotected cell, if protection is in effect.
    pub fn home(&mut self) {
        let seek = !self.suppressed || self.varies(Variant::HomeIgnoresSuppression);
        let seek = seek && !self.varies(Variant::HomeOrigin);
        let first = (0..self.cells()).find(|&cell| seek && !self.protected(cell));
        self.go(first.unwrap_or(0));
    }

    /// 19: the last start of an unprotected field before the cursor.
    pub fn reverse_tab(&mut self) {
        let seek = !self.suppressed || self.varies(Variant::ReverseTabIgnoresSuppression);
        let limit = self.at() + usize::from(self.varies(Variant::ReverseTabNotStrict));
        let starts = self.unprotected_fields().map(|field| field.start);
        let found = starts.take_while(|&start| seek && start < limit).last();
        self.go(found.unwrap_or(0));
    }

    /// Where 21 and 35 leave the cursor: the first unprotected field's
    /// start, else (0,0).
    pub fn first_start(&self) -> usize {
        let first = self.unprotected_fields().next();
        first.map_or(0, |field| field.start)
    }

    /// After typing: the next cell that is not guarded, if any.
    pub fn next_open(&mut self) {
        let mut after = self.at() + 1..self.cells();
        let found = match self.variant {
            Variant::TypingNextCell => after.next(),
            Variant::TypingWraps => after.chain(0..self.at()).find(|&cell| !self.guarded(cell)),
            _ => after.find(|&cell| !self.guarded(cell)),
        };
        if let Some(cell) = found {
            self.go(cell);
        }
    }

    /// Key 8: the previous cell that is not guarded, if any.
    pub fn previous_open(&mut self) {
        let from = match self.variant {
            Variant::Key8StopsAtLine => self.line().start,
            _ => 0,
        };
        let mut before = (from..self.at()).rev();
        let found = match self.variant {
            Variant::Key8OntoGuarded => before.next(),
            _ => before.find(|&cell| !self.guarded(cell)),
        };
        match found {
            Some(cell) => self.go(cell),
            None if self.varies(Variant::Key8Wraps) => self.go(self.cells() - 1),
            None => {}
        }
    }

    /// Key 9: the next unprotected field's start after the cursor, else
    /// the first one's, else nowhere.
    pub fn tab(&mut self) {
        let after = self.at() + usize::from(!self.varies(Variant::Key9NotStrict));
        let all = self.suppressed && self.varies(Variant::Key9Suppressed);
        let fields = self
            .fields()
            .filter(|field| all || !self.protected(field.start));
        let mut starts = fields.map(|field| field.start).peekable();
        let first = match self.variant {
            Variant::Key9NoWrap => None,
            _ => starts.peek().copied(),
        };
        let found = starts.find(|&start| start >= after).or(first);
        drop(starts);
        if let Some(cell) = found {
            self.go(cell);
        }
    }
}

/// Whether both are on the screen, so that 5 need not limit them.
pub fn on_screen(screen: &Screen, x: X, y: Y) -> bool {
    screen.size.holds(Position { x, y })
}
