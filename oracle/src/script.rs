//! The lines of a replay script, read and written.

use std::fmt;

/// The longest buffer, host input and reply buffer that a line may name.
const MOST_CELLS: usize = 8_448;
const MOST_INPUT: usize = 65_536;
const MOST_REPLY: usize = 80_000;

/// The numbers of an `open` line: the size asked for, the lengths of what
/// is lent, and the edition.
#[derive(Clone, Copy, Debug, PartialEq, Eq)]
pub struct Opening {
    pub m: u16,
    pub n: u16,
    pub chars: usize,
    pub attrs: usize,
    pub marks: usize,
    pub edition: u16,
}

impl Opening {
    /// The cells of the size asked for.
    pub fn cells(&self) -> usize {
        usize::from(self.m) * usize::from(self.n)
    }
}

#[derive(Clone, Debug, PartialEq, Eq)]
pub enum Line {
    Open(Opening),
    Chars(Vec<u8>),
    Attrs(Vec<u8>),
    Marks(Vec<u8>),
    Cursor(u8, u8),
    Held(u8),
    Det(bool),
    Suppress(bool),
    Pad(bool),
    Host(Vec<u8>, usize),
    Key(u8, usize),
    State,
}

impl Line {
    /// None for a bad line. The newline is not part of it.
    pub fn parse(line: &[u8]) -> Option<Line> {
        let mut fields = line.split(|&byte| byte == b' ');
        let word = fields.next()?;
        let mut field = || fields.next();
        let line = match word {
            b"open" => Line::Open(Opening {
                m: word_number(field()?)?,
                n: word_number(field()?)?,
                chars: number(field()?, MOST_CELLS)?,
                attrs: number(field()?, MOST_CELLS)?,
                marks: number(field()?, MOST_CELLS)?,
                edition: word_number(field()?)?,
            }),
            b"chars" => Line::Chars(bytes(field()?, MOST_CELLS)?),
            b"attrs" => Line::Attrs(bytes(field()?, MOST_CELLS)?),
            b"marks" => Line::Marks(bytes(field()?, MOST_CELLS)?),
            b"cursor" => Line::Cursor(small(field()?)?, small(field()?)?),
            b"held" => Line::Held(small(field()?)?),
            b"det" => Line::Det(flag(field()?)?),
            b"suppress" => Line::Suppress(flag(field()?)?),
            b"pad" => Line::Pad(flag(field()?)?),
            b"host" => Line::Host(bytes(field()?, MOST_INPUT)?, number(field()?, MOST_REPLY)?),
            b"key" => Line::Key(small(field()?)?, number(field()?, MOST_REPLY)?),
            b"state" => Line::State,
            _ => return None,
        };
        field().is_none().then_some(line)
    }

    /// Whether the line is one of the three operations.
    pub fn is_call(&self) -> bool {
        matches!(self, Line::Open(_) | Line::Host(..) | Line::Key(..))
    }
}

/// A decimal number, none if it is above the limit.
fn number(digits: &[u8], most: usize) -> Option<usize> {
    if digits.is_empty() {
        return None;
    }
    digits.iter().try_fold(0, |number, digit| {
        let value = digit.is_ascii_digit().then(|| usize::from(digit - b'0'))?;
        let number = number * 10 + value;
        (number <= most).then_some(number)
    })
}

fn word_number(digits: &[u8]) -> Option<u16> {
    number(digits, 65_535).map(|number| number as u16)
}

fn small(digits: &[u8]) -> Option<u8> {
    number(digits, 255).map(|number| number as u8)
}

fn flag(digits: &[u8]) -> Option<bool> {
    number(digits, 1).map(|number| number == 1)
}

/// Pairs of hexadecimal digits, or `-` for none.
fn bytes(digits: &[u8], most: usize) -> Option<Vec<u8>> {
    if digits == b"-" {
        return Some(Vec::new());
    }
    let pairs = digits.chunks_exact(2);
    if digits.is_empty() || !pairs.remainder().is_empty() || pairs.len() > most {
        return None;
    }
    pairs
        .map(|pair| Some(hex(pair[0])? << 4 | hex(pair[1])?))
        .collect()
}

fn hex(digit: u8) -> Option<u8> {
    match digit {
        b'0'..=b'9' => Some(digit - b'0'),
        b'a'..=b'f' => Some(digit - b'a' + 10),
        _ => None,
    }
}

/// Appends bytes as hexadecimal digits.
pub fn push_hex(text: &mut String, bytes: &[u8]) {
    const DIGITS: &[u8; 16] = b"0123456789abcdef";
    if bytes.is_empty() {
        text.push('-');
    }
    text.reserve(2 * bytes.len());
    for byte in bytes {
        text.push(char::from(DIGITS[usize::from(byte >> 4)]));
        text.push(char::from(DIGITS[usize::from(byte & 15)]));
    }
}

struct Hex<'a>(&'a [u8]);

impl fmt::Display for Hex<'_> {
    fn fmt(&self, f: &mut fmt::Formatter) -> fmt::Result {
        let mut text = String::new();
        push_hex(&mut text, self.0);
        f.write_str(&text)
    }
}

impl fmt::Display for Opening {
    fn fmt(&self, f: &mut fmt::Formatter) -> fmt::Result {
        let Opening { m, n, edition, .. } = self;
        let Opening {
            chars,
            attrs,
            marks,
            ..
        } = self;
        write!(f, "{m} {n} {chars} {attrs} {marks} {edition}")
    }
}

impl fmt::Display for Line {
    fn fmt(&self, f: &mut fmt::Formatter) -> fmt::Result {
        match self {
            Line::Open(open) => write!(f, "open {open}"),
            Line::Chars(bytes) => write!(f, "chars {}", Hex(bytes)),
            Line::Attrs(bytes) => write!(f, "attrs {}", Hex(bytes)),
            Line::Marks(bytes) => write!(f, "marks {}", Hex(bytes)),
            Line::Cursor(x, y) => write!(f, "cursor {x} {y}"),
            Line::Held(count) => write!(f, "held {count}"),
            Line::Det(on) => write!(f, "det {}", u8::from(*on)),
            Line::Suppress(on) => write!(f, "suppress {}", u8::from(*on)),
            Line::Pad(on) => write!(f, "pad {}", u8::from(*on)),
            Line::Host(bytes, room) => write!(f, "host {} {room}", Hex(bytes)),
            Line::Key(key, room) => write!(f, "key {key} {room}"),
            Line::State => f.write_str("state"),
        }
    }
}
