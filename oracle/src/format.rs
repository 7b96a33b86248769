//! 36 to 38: attributes, repeated characters, suppression.

use crate::command::{code, error};
use crate::desk::Desk;
use crate::screen::Screen;
use crate::telnet::Verb;
use crate::variant::Variant;

const WILL: u8 = Verb::Will as u8;
const WONT: u8 = Verb::Wont as u8;
const DO: u8 = Verb::Do as u8;
const DONT: u8 = Verb::Dont as u8;

/// Bits 7 to 5 of FORMAT DATA's first map byte stand for what the terminal
/// lacks, as does every bit of the second.
fn check_map([map, more]: [u8; 2], variant: Variant) -> Result<(), u8> {
    let foreign = match variant {
        Variant::FormatBit5 => 0b1100_0000,
        _ => 0b1110_0000,
    };
    let second = more != 0 && variant != Variant::FormatSecondMap;
    if map & foreign != 0 || second {
        return Err(error::BAD_MAP);
    }
    Ok(())
}

fn format_count(count: [u8; 2], variant: Variant) -> usize {
    usize::from(match variant {
        Variant::FormatLowFirst => u16::from_le_bytes(count),
        _ => u16::from_be_bytes(count),
    })
}

fn check_count(screen: &Screen, count: [u8; 2]) -> Result<(), u8> {
    let remain = screen.cells() - screen.at();
    let remain = remain - usize::from(screen.varies(Variant::FormatAllRemaining));
    if format_count(count, screen.variant) > remain {
        return Err(error::BAD_VALUE);
    }
    Ok(())
}

/// FORMAT DATA's values: the map first, then the count.
pub fn check(screen: &Screen, map: [u8; 2], count: [u8; 2]) -> Result<(), u8> {
    if screen.varies(Variant::Error12After11) {
        check_count(screen, count)?;
    }
    check_map(map, screen.variant)?;
    check_count(screen, count)
}

/// REPEAT's character, even where it is written no times.
pub fn check_repeat(count: u8, byte: u8, variant: Variant) -> Result<(), u8> {
    match (variant, byte) {
        (_, 32..=126) | (Variant::Repeat127, 127) => Ok(()),
        (Variant::RepeatNone, _) if count == 0 => Ok(()),
        _ => Err(error::BAD_VALUE),
    }
}

pub fn check_suppress(verb: u8) -> Result<(), u8> {
    match verb {
        WILL | WONT | DO | DONT => Ok(()),
        _ => Err(error::BAD_VALUE),
    }
}

impl Screen<'_> {
    /// 36: protection does not stop it.
    pub fn format(&mut self, map: u8, count: [u8; 2]) {
        let count = format_count(count, self.variant);
        let at = self.at();
        // Too many cells draw an ERROR; only a wrong variant gets here.
        let count = count.min(self.cells() - at);
        self.attrs[at..at + count].fill(map);
        match self.variant {
            Variant::FormatClearsMarks => self.set_marks(at..at + count, 0),
            Variant::FormatMarks => self.mark(at..at + count),
            _ => {}
        }
        if self.varies(Variant::Cursor36Moves) {
            self.go((at + count).min(self.cells() - 1));
        }
    }

    /// 37: as so many host characters.
    pub fn repeat(&mut self, count: u8, byte: u8) {
        for _ in 0..count {
            if self.varies(Variant::RepeatMarks) && !self.guarded(self.at()) {
                self.mark(self.at()..self.at() + 1);
            }
            self.write(byte);
        }
        if self.varies(Variant::RepeatLastWraps) && self.at() + 1 == self.cells() && count > 0 {
            self.go(0);
        }
    }
}

impl Desk<'_> {
    /// 38: a DO or DONT is obeyed; the host's own WILL is declined.
    pub fn suppress(&mut self, verb: u8) {
        match verb {
            DO => self.set_suppressed(true, Verb::Will),
            DONT => self.set_suppressed(false, Verb::Wont),
            WILL if self.varies(Variant::SuppressWillInSilence) => {}
            WILL => self.answer_suppress(Verb::Dont),
            _ => {}
        }
    }

    fn set_suppressed(&mut self, suppressed: bool, answer: Verb) {
        let changed = self.screen.suppressed != suppressed;
        self.screen.suppressed = suppressed;
        if changed || self.varies(Variant::SuppressAnswersAlways) {
            self.answer_suppress(answer);
        }
    }

    fn answer_suppress(&mut self, verb: Verb) {
        self.reply
            .subcommand(code::SUPPRESS_PROTECTION, &[verb.byte()]);
    }
}
