//! Shorter and plainer lists, tried out block by block.

use super::numbers::lower;
use crate::script::Line;

/// The bytes of a line that has some, and the byte that says least in them.
/// No byte does among host bytes.
pub fn bytes(line: &Line) -> Option<(&[u8], Option<u8>)> {
    match line {
        Line::Host(bytes, _) => Some((bytes, None)),
        Line::Chars(bytes) => Some((bytes, Some(b' '))),
        Line::Attrs(bytes) | Line::Marks(bytes) => Some((bytes, Some(0))),
        _ => None,
    }
}

pub fn with_bytes(line: &Line, bytes: &[u8]) -> Line {
    match line {
        Line::Host(_, room) => Line::Host(bytes.to_vec(), *room),
        Line::Chars(_) => Line::Chars(bytes.to_vec()),
        Line::Attrs(_) => Line::Attrs(bytes.to_vec()),
        Line::Marks(_) => Line::Marks(bytes.to_vec()),
        _ => line.clone(),
    }
}

/// Leaves out blocks, from the whole list down to the least size, wherever
/// the rest still fits.
pub fn leave_out<T: Clone>(
    mut items: Vec<T>,
    least: usize,
    mut fits: impl FnMut(&[T]) -> bool,
) -> Vec<T> {
    let mut size = items.len();
    while size >= least.max(1) {
        let mut start = 0;
        while start < items.len() {
            let end = items.len().min(start + size);
            let left = [&items[..start], &items[end..]].concat();
            match fits(&left) {
                true => items = left,
                false => start = end,
            }
        }
        size = items.len().min(size / 2);
    }
    items
}

/// Fills blocks with the plain byte, likewise.
pub fn fill(mut bytes: Vec<u8>, plain: u8, least: usize, mut fits: impl FnMut(&[u8]) -> bool) {
    let mut size = bytes.len();
    while size >= least.max(1) {
        for start in (0..bytes.len()).step_by(size) {
            let end = bytes.len().min(start + size);
            let mut filled = bytes.clone();
            filled[start..end].fill(plain);
            if filled != bytes && fits(&filled) {
                bytes = filled;
            }
        }
        size /= 2;
    }
}

/// Lowers each byte for itself.
pub fn lower_each(mut bytes: Vec<u8>, mut fits: impl FnMut(&[u8]) -> bool) {
    for place in 0..bytes.len() {
        let byte = usize::from(bytes[place]);
        let mut tried = bytes.clone();
        let lowered = lower(byte, |byte| {
            tried[place] = byte as u8;
            fits(&tried)
        });
        bytes[place] = lowered as u8;
    }
}
