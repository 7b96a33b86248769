//! The operator's keys.

use crate::class;
use crate::command::code;
use crate::desk::Desk;
use crate::edition::Edition;
use crate::screen::protection;
use crate::variant::Variant;
use crate::watch::Event;

#[derive(Clone, Copy, Debug, PartialEq, Eq)]
pub enum Key {
    Typed(u8),
    Back,
    Tab,
    Send,
    Delete,
    /// With the number that FN sends.
    Function(u8),
    /// Taken by the edit line.
    Line(u8),
}

impl Key {
    /// None for a key without a meaning.
    pub fn meaning(key: u8, variant: Variant) -> Option<Key> {
        match (key, variant) {
            (127, Variant::Key127NoMeaning) => None,
            (128, Variant::Key128NoMeaning) => None,
            (143, Variant::Key143NoMeaning) => None,
            (144, Variant::Key144Function) => Some(Key::Function(17)),
            (128..=143, Variant::FunctionLess128) => Some(Key::Function(key - 128)),
            (8, _) => Some(Key::Back),
            (9, _) => Some(Key::Tab),
            (13, _) => Some(Key::Send),
            (32..=126, _) => Some(Key::Typed(key)),
            (127, _) => Some(Key::Delete),
            (128..=143, _) => Some(Key::Function(key - 127)),
            _ => None,
        }
    }

    /// Refused with 8 while DET is off.
    pub fn needs_det(self, variant: Variant) -> bool {
        match self {
            Key::Send => variant != Variant::SendWithoutDet,
            Key::Function(_) => true,
            Key::Delete => variant == Variant::DeleteNeedsDet,
            _ => false,
        }
    }

    /// Refused with 6 on a guarded cell.
    pub fn changes_cell(self) -> bool {
        matches!(self, Key::Typed(_) | Key::Delete)
    }

    /// Refused with 7 otherwise.
    pub fn fits(self, attr: u8, suppressed: bool, variant: Variant) -> bool {
        let tested = !suppressed || variant == Variant::ClassWhileSuppressed;
        match self {
            Key::Typed(byte) if tested => class::takes(protection::of(attr), byte, variant),
            _ => true,
        }
    }
}

impl Desk<'_> {
    /// A key that nothing refuses.
    pub fn press(&mut self, key: u8, meaning: Key) {
        self.saw(Event::Key(key));
        if self.varies(Variant::JuneKeysSeptember) {
            self.reply.edition = Edition::September;
        }
        if self.key_governed(meaning) {
            return;
        }
        match meaning {
            Key::Typed(byte) => self.type_in(byte),
            Key::Back => self.screen.previous_open(),
            Key::Tab => self.screen.tab(),
            Key::Send => self.send_key(),
            Key::Delete => self.screen.delete(Variant::KeyDeleteUnmarked),
            Key::Function(number) => self.reply.subcommand(code::FN, &[number]),
            Key::Line(byte) => self.type_into_line(byte),
        }
    }

    fn send_key(&mut self) {
        match self.variant {
            Variant::SendKeyModified => return self.transmit_modified(),
            Variant::SendKeyClearsMarks => self.screen.clear_marks(),
            _ => {}
        }
        self.transmit_unprotected();
    }

    fn type_in(&mut self, byte: u8) {
        let cell = self.screen.at();
        let same = self.screen.chars[cell] == byte;
        self.screen.chars[cell] = byte;
        match self.variant {
            Variant::TypingUnmarked => {}
            Variant::TypingSameUnmarked if same => {}
            Variant::TypingMarksField => self.screen.mark(self.screen.field(cell)),
            _ => self.screen.mark(cell..cell + 1),
        }
        self.screen.next_open();
    }
}
