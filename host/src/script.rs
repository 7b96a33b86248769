//! The lines of a replay script, as `docs/REPLAY.md` has them.

use std::slice::Split;

/// One line. The numbers are no larger than the protocol lets them be.
#[derive(Clone, Debug, PartialEq, Eq)]
pub enum Line {
    Open {
        width: usize,
        height: usize,
        chars: usize,
        attrs: usize,
        marks: usize,
        edition: usize,
    },
    Host {
        input: Vec<u8>,
        room: usize,
    },
    Key {
        key: u32,
        room: usize,
    },
    Chars(Vec<u8>),
    Attrs(Vec<u8>),
    Marks(Vec<u8>),
    Cursor {
        x: u8,
        y: u8,
    },
    Held(u8),
    Det(u8),
    Suppress(u8),
    Pad(u8),
    State,
}

const MOST_SIZE: usize = 65_535;
const MOST_EDITION: usize = 65_535;
const MOST_CELLS: usize = 8_448;
const MOST_INPUT: usize = 65_536;
const MOST_ROOM: usize = 80_000;

impl Line {
    /// None for a bad line. The newline is no part of it.
    pub fn parse(line: &[u8]) -> Option<Line> {
        let mut fields = Fields(line.split(is_space));
        let line = match fields.next()? {
            b"open" => Line::Open {
                width: fields.number(MOST_SIZE)?,
                height: fields.number(MOST_SIZE)?,
                chars: fields.number(MOST_CELLS)?,
                attrs: fields.number(MOST_CELLS)?,
                marks: fields.number(MOST_CELLS)?,
                edition: fields.number(MOST_EDITION)?,
            },
            b"host" => Line::Host {
                input: fields.bytes(MOST_INPUT)?,
                room: fields.number(MOST_ROOM)?,
            },
            b"key" => Line::Key {
                key: fields.byte(255)?.into(),
                room: fields.number(MOST_ROOM)?,
            },
            b"chars" => Line::Chars(fields.bytes(MOST_CELLS)?),
            b"attrs" => Line::Attrs(fields.bytes(MOST_CELLS)?),
            b"marks" => Line::Marks(fields.bytes(MOST_CELLS)?),
            b"cursor" => Line::Cursor {
                x: fields.byte(255)?,
                y: fields.byte(255)?,
            },
            b"held" => Line::Held(fields.byte(255)?),
            b"det" => Line::Det(fields.byte(1)?),
            b"suppress" => Line::Suppress(fields.byte(1)?),
            b"pad" => Line::Pad(fields.byte(1)?),
            b"state" => Line::State,
            _ => return None,
        };
        fields.next().is_none().then_some(line)
    }
}

fn is_space(byte: &u8) -> bool {
    *byte == b' '
}

/// The fields of a line that are left to read.
struct Fields<'a>(Split<'a, u8, fn(&u8) -> bool>);

impl<'a> Fields<'a> {
    fn next(&mut self) -> Option<&'a [u8]> {
        self.0.next()
    }

    fn number(&mut self, most: usize) -> Option<usize> {
        let digits = self.next()?;
        let mut number = digits.first().map(|_| 0)?;
        for digit in digits {
            let digit = char::from(*digit).to_digit(10)?;
            number = 10 * number + digit as usize;
            if number > most {
                return None;
            }
        }
        Some(number)
    }

    fn byte(&mut self, most: u8) -> Option<u8> {
        u8::try_from(self.number(most.into())?).ok()
    }

    fn bytes(&mut self, most: usize) -> Option<Vec<u8>> {
        let digits = match self.next()? {
            b"" => return None,
            b"-" => return Some(Vec::new()),
            digits => digits,
        };
        if digits.len() % 2 != 0 || digits.len() / 2 > most {
            return None;
        }
        let pair = |pair: &[u8]| Some(16 * hex_value(pair[0])? + hex_value(pair[1])?);
        digits.chunks(2).map(pair).collect()
    }
}

const HEX: &[u8; 16] = b"0123456789abcdef";

fn hex_value(digit: u8) -> Option<u8> {
    HEX.iter()
        .zip(0..)
        .find(|(d, _)| **d == digit)
        .map(|(_, value)| value)
}

/// Bytes as a script has them.
pub fn hex(bytes: &[u8]) -> String {
    if bytes.is_empty() {
        return "-".into();
    }
    let digit = |value: u8| char::from(HEX[usize::from(value)]);
    let digits = bytes.iter().flat_map(|byte| [byte >> 4, byte & 15]);
    digits.map(digit).collect()
}
