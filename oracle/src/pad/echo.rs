//! What typing shows on the screen. All of it is written as host text, but
//! none of it is the host's: parameter 13 has no say in its line feeds.

use super::parameters::{line_feed, number};
use super::{sets, CR, LF};
use crate::desk::Desk;
use crate::variant::Variant;

impl Desk<'_> {
    /// A typed character as itself, CR perhaps with a line feed.
    pub fn echo(&mut self, key: u8) {
        if !self.echoes(key) {
            return;
        }
        self.show(&[key]);
        let bit = match self.variant {
            Variant::EchoByInputBit => line_feed::ON_INPUT,
            _ => line_feed::IN_ECHO,
        };
        if key == CR && self.pad.parameters.has(number::LINE_FEEDS, bit) {
            self.show_line_feed();
        }
    }

    fn show_line_feed(&mut self) {
        let masked = self
            .pad
            .parameters
            .has(number::ECHO_MASK, sets::silencing(LF));
        if !(masked && self.varies(Variant::MaskTakesEchoedLf)) {
            self.show(&[LF]);
        }
    }

    /// Chosen by the key alone, whatever its echo consists of.
    pub fn echoes(&self, key: u8) -> bool {
        let parameters = &self.pad.parameters;
        let on = parameters.get(number::ECHO) == 1 || self.varies(Variant::EchoWithout2);
        let masked = parameters.has(number::ECHO_MASK, self.silencing(key));
        on && !masked && !self.kept_back(key)
    }

    /// A wrong use of parameters that are only held.
    fn kept_back(&self, key: u8) -> bool {
        let parameters = &self.pad.parameters;
        let is = |number| parameters.known(number) && parameters.get(number) == key;
        match self.variant {
            Variant::EscapeUnechoed => key > 1 && is(1),
            Variant::FlowUnechoed => {
                let used = [5, 12, 22].map(|number| parameters.get(number));
                used != [0; 3] && (is(130) || is(131))
            }
            _ => false,
        }
    }

    /// The bits of parameter 20 that silence a key.
    fn silencing(&self, key: u8) -> u8 {
        let edits = self.pad.edit(key, self.variant).is_some();
        match (edits, self.variant) {
            (_, Variant::EchoMaskIgnored) | (true, Variant::Mask64Ignored) => 0,
            (true, Variant::MaskSignalsByKey) => sets::silencing(key) | sets::EDITING,
            (true, _) => sets::EDITING,
            (false, _) => sets::silencing(key),
        }
    }

    pub fn show(&mut self, bytes: &[u8]) {
        for &byte in bytes {
            let at = self.screen.at();
            match self.variant {
                Variant::EchoMarks if !self.screen.guarded(at) && (32..=126).contains(&byte) => {
                    self.screen.mark(at..at + 1);
                    self.screen.text(byte);
                }
                Variant::EchoLfSwallowed => self.host_text(byte),
                Variant::EchoAsTyped if (32..=126).contains(&byte) => self.show_as_typed(byte),
                _ => self.screen.text(byte),
            }
        }
        if self.varies(Variant::EchoForgetsCr) {
            self.pad.after_cr = false;
        }
    }

    fn show_as_typed(&mut self, byte: u8) {
        let cell = self.screen.at();
        if !self.screen.guarded(cell) {
            self.screen.chars[cell] = byte;
            self.screen.next_open();
        }
    }
}
