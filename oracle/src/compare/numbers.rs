//! The numbers of a line, and lower ones in their place. An edition is a
//! name rather than a number.

use crate::script::{Line, Opening};

pub fn numbers(line: &Line) -> Vec<usize> {
    match line {
        Line::Open(open) => {
            let size = [open.m.into(), open.n.into()];
            [&size[..], &lengths(open)].concat()
        }
        Line::Cursor(x, y) => vec![(*x).into(), (*y).into()],
        Line::Held(count) => vec![(*count).into()],
        Line::Det(on) | Line::Suppress(on) | Line::Pad(on) => vec![(*on).into()],
        Line::Host(_, room) => vec![*room],
        Line::Key(key, room) => vec![(*key).into(), *room],
        Line::Chars(_) | Line::Attrs(_) | Line::Marks(_) | Line::State => Vec::new(),
    }
}

/// How long the buffers are that an open lends.
pub fn lengths(open: &Opening) -> [usize; 3] {
    [open.chars, open.attrs, open.marks]
}

/// The line with other numbers, none of them higher than its own.
pub fn with_numbers(line: &Line, numbers: &[usize]) -> Line {
    match (line, numbers) {
        (Line::Open(open), &[m, n, chars, attrs, marks]) => Line::Open(Opening {
            m: m as u16,
            n: n as u16,
            chars,
            attrs,
            marks,
            ..*open
        }),
        (Line::Cursor(..), &[x, y]) => Line::Cursor(x as u8, y as u8),
        (Line::Held(_), &[count]) => Line::Held(count as u8),
        (Line::Det(_), &[on]) => Line::Det(on == 1),
        (Line::Suppress(_), &[on]) => Line::Suppress(on == 1),
        (Line::Pad(_), &[on]) => Line::Pad(on == 1),
        (Line::Host(bytes, _), &[room]) => Line::Host(bytes.clone(), room),
        (Line::Key(..), &[key, room]) => Line::Key(key as u8, room),
        _ => line.clone(),
    }
}

/// Lowers a number by smaller and smaller steps, as far as it fits.
pub fn lower(mut number: usize, mut fits: impl FnMut(usize) -> bool) -> usize {
    let mut step = number;
    while step > 0 {
        while number >= step && fits(number - step) {
            number -= step;
        }
        step /= 2;
    }
    number
}
