//! The sets of characters that parameters 3 and 20 name by their bits.

use crate::variant::Variant;

/// The bit of parameter 20 for edit keys, whatever characters they are.
pub const EDITING: u8 = 64;

/// The bit of parameter 3 that a character forwards by, 0 for none.
pub fn forwarding(byte: u8, variant: Variant) -> u8 {
    match (byte, variant) {
        (b'0'..=b'9', Variant::Forward1Letters) => 0,
        (127, Variant::Forward8NoDel) => 0,
        (8, Variant::Forward32Bs) => 32,
        (b'0'..=b'9' | b'A'..=b'Z' | b'a'..=b'z', _) => 1,
        (13, _) => 2,
        (5..=7 | 27, _) => 4,
        (18 | 24 | 127, _) => 8,
        (3 | 4, _) => 16,
        (9..=12, _) => 32,
        (0..=31, _) => 64,
        _ => 0,
    }
}

/// The bit of parameter 20 that silences a character, 0 for none.
pub fn silencing(byte: u8) -> u8 {
    match byte {
        13 => 1,
        10 => 2,
        9 | 11 | 12 => 4,
        7 | 8 => 8,
        5 | 27 => 16,
        1..=4 | 6 | 21 | 23 => 32,
        0..=31 | 127 => 128,
        _ => 0,
    }
}
