//! A smaller screen in a script: everything that its size lays out changes
//! with it, or the calls that follow would only be refused.

use std::ops::Range;

use super::numbers::lengths;
use crate::script::{Line, Opening};

#[derive(Clone, Copy, Debug, PartialEq, Eq)]
pub enum Side {
    Bottom,
    Right,
    Top,
    Left,
}

impl Side {
    pub const ALL: [Side; 4] = [Side::Bottom, Side::Right, Side::Top, Side::Left];

    /// How long the screen is that the line opens, counted from that side.
    pub fn length(self, line: &Line) -> usize {
        match (line, self) {
            (Line::Open(open), Side::Top | Side::Bottom) => usize::from(open.n),
            (Line::Open(open), Side::Left | Side::Right) => usize::from(open.m),
            _ => 0,
        }
    }
}

/// A screen and the part of it that stays.
struct Window {
    m: usize,
    n: usize,
    edition: u16,
    columns: Range<usize>,
    rows: Range<usize>,
}

/// The script with that screen cropped to the length; none where the line
/// opens no screen or nothing would be left of it.
pub fn crop(script: &[Line], open: usize, side: Side, length: usize) -> Option<Vec<Line>> {
    let window = Window::new(&script[open], side, length)?;
    let mut cropped = script.to_vec();
    cropped[open] = window.open();
    let after = &mut cropped[open + 1..];
    let until = |line: &&mut Line| !matches!(line, Line::Open(_));
    for line in after.iter_mut().take_while(until) {
        *line = window.line(line);
    }
    Some(cropped)
}

impl Window {
    fn new(open: &Line, side: Side, length: usize) -> Option<Window> {
        let &Line::Open(opening) = open else {
            return None;
        };
        let (m, n) = (usize::from(opening.m), usize::from(opening.n));
        let fit = lengths(&opening).iter().all(|&each| each == m * n);
        if length == 0 || !fit || length >= side.length(open) {
            return None;
        }
        let (mut columns, mut rows) = (0..m, 0..n);
        match side {
            Side::Bottom => rows.end = length,
            Side::Right => columns.end = length,
            Side::Top => rows.start = n - length,
            Side::Left => columns.start = m - length,
        }
        Some(Window {
            m,
            n,
            edition: opening.edition,
            columns,
            rows,
        })
    }

    fn cells(&self) -> usize {
        self.columns.len() * self.rows.len()
    }

    fn open(&self) -> Line {
        Line::Open(Opening {
            m: self.columns.len() as u16,
            n: self.rows.len() as u16,
            chars: self.cells(),
            attrs: self.cells(),
            marks: self.cells(),
            edition: self.edition,
        })
    }

    fn line(&self, line: &Line) -> Line {
        match line {
            Line::Chars(bytes) => Line::Chars(self.bytes(bytes)),
            Line::Attrs(bytes) => Line::Attrs(self.bytes(bytes)),
            Line::Marks(bytes) => Line::Marks(self.bytes(bytes)),
            Line::Cursor(x, y) => Line::Cursor(
                moved(*x, self.m, &self.columns),
                moved(*y, self.n, &self.rows),
            ),
            Line::Host(bytes, room) => Line::Host(bytes.clone(), self.room(*room)),
            Line::Key(key, room) => Line::Key(*key, self.room(*room)),
            _ => line.clone(),
        }
    }

    /// A buffer that does not fit the screen is left as it is.
    fn bytes(&self, bytes: &[u8]) -> Vec<u8> {
        if bytes.len() != self.m * self.n {
            return bytes.to_vec();
        }
        let rows = bytes.chunks_exact(self.m);
        let kept = rows.skip(self.rows.start).take(self.rows.len());
        kept.flat_map(|row| &row[self.columns.clone()])
            .copied()
            .collect()
    }

    /// As much above or below the room for the longest reply as before.
    fn room(&self, room: usize) -> usize {
        room.saturating_sub(9 * (self.m * self.n - self.cells()))
    }
}

/// Where a coordinate comes to: off the screen only if it was before.
fn moved(at: u8, length: usize, kept: &Range<usize>) -> u8 {
    let old = usize::from(at);
    let new = match old < length {
        true => old.saturating_sub(kept.start).min(kept.len() - 1),
        false => old - (length - kept.len()),
    };
    new as u8
}
