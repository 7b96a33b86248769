//! Which typed bytes a cell's class takes.

use crate::screen::protection::{ALPHABETIC, NUMERIC};
use crate::variant::Variant;

/// What classes a byte belongs to.
#[derive(Clone, Copy)]
struct Classes {
    alphabetic: bool,
    numeric: bool,
}

const TABLE: [Classes; 256] = table();

const fn table() -> [Classes; 256] {
    let outside = Classes {
        alphabetic: false,
        numeric: false,
    };
    let mut table = [outside; 256];
    let mut byte = 0;
    while byte < 256 {
        table[byte] = Classes {
            alphabetic: matches!(byte as u8, b'A'..=b'Z' | b'a'..=b'z' | b' '),
            numeric: matches!(byte as u8, b'0'..=b'9' | b' ' | b'+' | b'-' | b'.'),
        };
        byte += 1;
    }
    table
}

/// Whether a cell of that protection takes the byte.
pub fn takes(protection: u8, byte: u8, variant: Variant) -> bool {
    let classes = TABLE[usize::from(byte)];
    let right = match protection {
        ALPHABETIC => classes.alphabetic,
        NUMERIC => classes.numeric,
        _ => true,
    };
    right != (mistaken(variant) == Some((protection, byte)))
}

/// The one entry that a variant has the other way round.
fn mistaken(variant: Variant) -> Option<(u8, u8)> {
    Some(match variant {
        Variant::ClassAt => (ALPHABETIC, b'@'),
        Variant::ClassBracket => (ALPHABETIC, b'['),
        Variant::ClassBackquote => (ALPHABETIC, b'`'),
        Variant::ClassBrace => (ALPHABETIC, b'{'),
        Variant::ClassLetterSpace => (ALPHABETIC, b' '),
        Variant::ClassSlash => (NUMERIC, b'/'),
        Variant::ClassColon => (NUMERIC, b':'),
        Variant::ClassComma => (NUMERIC, b','),
        Variant::ClassMinus => (NUMERIC, b'-'),
        Variant::ClassNumberSpace => (NUMERIC, b' '),
        _ => return None,
    })
}
