//! The screen and reply bytes as text.

use std::io::{self, Write};

use crate::desk::Desk;

const UNDERLINE: &str = "\x1b[4m";
const REVERSE: &str = "\x1b[7m";
const NORMAL: &str = "\x1b[0m";

/// The screen in a frame. Styled, a form's open cells are underlined and the
/// cursor is reversed; it is named below in any case.
pub fn screen(desk: &Desk, styled: bool, out: &mut impl Write) -> io::Result<()> {
    let (width, cursor) = (desk.session.width(), desk.session.cursor());
    let is_open = |cell| desk.session.is_on() && !desk.is_protected(cell);
    let edge = "-".repeat(width);
    let cursor_cell = usize::from(cursor.y) * width + usize::from(cursor.x);
    writeln!(out, "  +{edge}+")?;
    for y in 0..desk.session.height() {
        write!(out, "  |")?;
        for cell in y * width..(y + 1) * width {
            let char = char::from(desk.chars[cell]);
            match (styled, cell == cursor_cell, is_open(cell)) {
                (true, true, _) => write!(out, "{REVERSE}{char}{NORMAL}")?,
                (true, false, true) => write!(out, "{UNDERLINE}{char}{NORMAL}")?,
                _ => write!(out, "{char}")?,
            }
        }
        writeln!(out, "|")?;
    }
    writeln!(out, "  +{edge}+")?;
    writeln!(out, "  cursor: column {}, line {}", cursor.x, cursor.y)
}

/// Bytes in hexadecimal, sixteen a line, with their text beside them.
pub fn bytes(bytes: &[u8], out: &mut impl Write) -> io::Result<()> {
    for line in bytes.chunks(16) {
        let hex: Vec<String> = line.iter().map(|byte| format!("{byte:02x}")).collect();
        let shown = |byte: &u8| match byte {
            32..=126 => char::from(*byte),
            _ => '.',
        };
        let text: String = line.iter().map(shown).collect();
        writeln!(out, "  {:47}  |{text}|", hex.join(" "))?;
    }
    Ok(())
}
