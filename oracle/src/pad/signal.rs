//! What the edit keys show: the signals of parameter 19, and the line.

use super::parameters::number;
use super::stroke::Edit;
use super::BS;
use crate::desk::Desk;
use crate::variant::Variant;

/// Parameter 19; any other value is itself a character delete's signal.
mod style {
    pub const NOTHING: u8 = 0;
    pub const PRINTING: u8 = 1;
    pub const DISPLAY: u8 = 2;
}

const DISPLAY_DELETE: [u8; 3] = [BS, b' ', BS];

impl Desk<'_> {
    /// A deleting key's signals are its echo.
    pub fn signal(&mut self, edit: Edit, key: u8) {
        if edit == Edit::LineDisplay {
            return self.display(key);
        }
        if !self.echoes(key) && !self.signals_anyway() {
            return;
        }
        let length = self.pad.line.bytes().len();
        match edit {
            Edit::CharacterDelete if length == 0 && self.varies(Variant::EmptySignalsNothing) => {}
            Edit::CharacterDelete => self.signal_characters(1),
            Edit::LineDelete => self.signal_line(length),
            _ => {
                let word = self.pad.line.last_word(self.variant);
                let once = self.varies(Variant::WordSignalsOnce);
                self.signal_characters(if once { word.min(1) } else { word });
            }
        }
    }

    fn signals_anyway(&self) -> bool {
        let silent = self.pad.parameters.get(number::ECHO) == 0;
        silent && self.varies(Variant::SignalsWithout2)
    }

    /// The line is printed, whatever may be echoed; its key is not.
    fn display(&mut self, key: u8) {
        if self.varies(Variant::DisplayKeyEchoed) {
            self.echo(key);
        }
        if self.varies(Variant::DisplayNeedsEcho) && !self.echoes(key) {
            return;
        }
        let line = self.pad.line.clone();
        self.show(line.bytes());
    }

    fn signal_characters(&mut self, count: usize) {
        let style = self.pad.parameters.get(number::SIGNALS);
        for _ in 0..count {
            match style {
                style::NOTHING => {}
                style::PRINTING if self.varies(Variant::PrintingDeleteQuote) => self.show(b"\""),
                style::PRINTING => self.show(b"\\"),
                style::DISPLAY => self.show(&DISPLAY_DELETE),
                character => self.show(&[character]),
            }
        }
    }

    fn signal_line(&mut self, length: usize) {
        let style = self.pad.parameters.get(number::SIGNALS);
        match style {
            style::NOTHING => {}
            style::DISPLAY if self.varies(Variant::LineDeleteOnce) => self.signal_characters(1),
            style::DISPLAY => self.signal_characters(length),
            8.. if self.varies(Variant::LineDeleteByCharacter) => self.signal_characters(length),
            _ if self.varies(Variant::LineDeleteNoCrLf) => self.show(b"XXX"),
            _ => self.show(b"XXX\r\n"),
        }
    }
}
