//! Keys into the edit line, and the line sent.

use super::parameters::{line_feed, number};
use super::stroke::{Edit, Stroke};
use super::{CR, LF};
use crate::desk::Desk;
use crate::variant::Variant;

const NUL: u8 = 0;

impl Desk<'_> {
    /// A key that the line takes and nothing refuses.
    pub fn type_into_line(&mut self, key: u8) {
        match self.pad.stroke(key, self.variant) {
            Stroke::Edit(edit) => self.edit(edit, key),
            Stroke::Forward => {
                self.echo(key);
                self.forward(key);
            }
            Stroke::Text => {
                self.echo(key);
                self.pad.line.push(key);
                if self.varies(Variant::FullLineGoes) && self.pad.line.is_full(self.variant) {
                    self.send_line();
                }
            }
        }
    }

    /// The key goes out with the line.
    fn forward(&mut self, key: u8) {
        if !self.varies(Variant::ForwardingKeyStays) {
            self.pad.line.push(key);
        }
        self.send_line();
        if self.varies(Variant::ForwardingKeyStays) {
            self.pad.line.push(key);
        }
    }

    /// A CR goes as two bytes, the second by parameter 13 as it now stands.
    pub fn send_line(&mut self) {
        let bit = match self.variant {
            Variant::InputByOutputBit => line_feed::ON_OUTPUT,
            _ => line_feed::ON_INPUT,
        };
        let second = match self.pad.parameters.has(number::LINE_FEEDS, bit) {
            true => LF,
            false => NUL,
        };
        for &byte in self.pad.line.bytes() {
            self.reply.data(&[byte]);
            if byte == CR && self.variant != Variant::CrSentAlone {
                self.reply.data(&[second]);
            }
        }
        if !self.varies(Variant::SentLineStays) {
            self.pad.line.clear();
        }
    }

    /// Shown first, since the signals go by the line as it was.
    fn edit(&mut self, edit: Edit, key: u8) {
        self.signal(edit, key);
        match edit {
            Edit::CharacterDelete => self.pad.line.shorten(1),
            Edit::LineDelete => self.pad.line.clear(),
            Edit::WordDelete => {
                let word = self.pad.line.last_word(self.variant);
                self.pad.line.shorten(word);
            }
            Edit::LineDisplay => {}
        }
    }
}
