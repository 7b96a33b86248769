//! What only wrong variants do about facilities.

use super::{bit, class, Bit};
use crate::command::{code, error, parameter_count};
use crate::desk::Desk;
use crate::key::Key;
use crate::screen::protection;
use crate::telnet::Verb;
use crate::variant::Variant;

impl Desk<'_> {
    /// A command that passes although its bit is not agreed.
    pub fn excused(&self, code: u8, parameters: &[u8], bit: Bit) -> bool {
        const WILL: u8 = Verb::Will as u8;
        const WONT: u8 = Verb::Wont as u8;
        const DONT: u8 = Verb::Dont as u8;
        match (self.variant, code, parameters) {
            (Variant::NeverError1, ..) => true,
            (Variant::AnyBitWillDo, ..) => self.agreed.0[bit.0 as usize] != 0,
            (Variant::UnprotectedFree, ..) => bit == bit::PROTECTION,
            (Variant::ModifiedFree, ..) => bit == bit::MODIFIED,
            (Variant::SkipsFree, ..) => bit == bit::TOROIDAL,
            (Variant::LinesFree, ..) => bit == bit::LINES,
            (Variant::SuppressDontFree, code::SUPPRESS_PROTECTION, [DONT]) => true,
            (Variant::SuppressWillFree, code::SUPPRESS_PROTECTION, [WILL | WONT]) => true,
            _ => false,
        }
    }

    /// FORMAT DATA held to the attributes that were agreed on.
    pub fn check_attributes(&self, code: u8, parameters: &[u8]) -> Result<(), u8> {
        let (code::FORMAT_DATA, &[map, ..]) = (code, parameters) else {
            return Ok(());
        };
        let needed = match (self.variant, protection::of(map)) {
            (Variant::FormatByAttributes, protection::PROTECTED) => bit::PROTECTION,
            (Variant::FormatByAttributes, protection::ALPHABETIC) => bit::ALPHABETIC,
            (Variant::FormatByAttributes, protection::NUMERIC) => bit::NUMERIC,
            _ => return Ok(()),
        };
        match self.agreed.has(needed) {
            true => Ok(()),
            false => Err(error::NOT_AGREED),
        }
    }

    /// 22 to 26 held to the facility of their preface.
    pub fn check_preface(&self, code: u8) -> Result<(), u8> {
        let prefaced = (code::TRANSMIT_LINE..=code::TRANSMIT_REST_OF_FIELD).contains(&code);
        let held = self.varies(Variant::PrefaceGoverned) && prefaced;
        match held && !self.agreed.has(bit::DATA_TRANSMIT) {
            true => Err(error::NOT_AGREED),
            false => Ok(()),
        }
    }

    /// After its ERROR, a command that has an effect nevertheless.
    pub fn act_all_the_same(&mut self, code: u8, number: u8, parameters: &[u8]) {
        let whole = parameter_count(code) == Some(parameters.len());
        match (self.variant, number) {
            (Variant::Error1Acts, error::NOT_AGREED) if whole => self.execute(code, parameters),
            (Variant::FacilityTooMany, error::TOO_MANY) => self.note(code, parameters),
            (Variant::FacilityTooFew, error::TOO_FEW) => self.note(code, &[0, 0]),
            (Variant::FormatOneByte, error::TOO_FEW) => self.note(code, parameters),
            _ => {}
        }
    }

    /// A facility command while DET is off.
    pub fn note_while_off(&mut self, held: &[u8]) {
        if let (Variant::FacilityWhileOff, Some((&code, maps))) = (self.variant, held.split_first())
        {
            if maps.len() == class(code).len() {
                self.note(code, maps);
            }
        }
    }

    /// A key that does nothing since its facility is not agreed.
    pub fn key_governed(&self, key: Key) -> bool {
        let bit = match (key, self.variant) {
            (Key::Send, Variant::KeySendGoverned) => bit::PROTECTION,
            (Key::Delete, Variant::KeyDeleteGoverned) => bit::CHARS,
            (Key::Function(_), Variant::KeyFunctionGoverned) => bit::FN,
            _ => return false,
        };
        !self.agreed.has(bit)
    }
}
