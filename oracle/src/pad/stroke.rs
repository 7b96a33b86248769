//! What a key does while the line takes the keys.

use super::parameters::number;
use super::{sets, Pad};
use crate::variant::Variant;

#[derive(Clone, Copy, Debug, PartialEq, Eq)]
pub enum Edit {
    CharacterDelete,
    LineDelete,
    LineDisplay,
    WordDelete,
}

#[derive(Clone, Copy, Debug, PartialEq, Eq)]
pub enum Stroke {
    Edit(Edit),
    Forward,
    Text,
}

/// Each edit key's parameter; the first that names a key counts.
pub const EDITS: [(u8, Edit); 4] = [
    (number::CHARACTER_DELETE, Edit::CharacterDelete),
    (number::LINE_DELETE, Edit::LineDelete),
    (number::LINE_DISPLAY, Edit::LineDisplay),
    (number::WORD_DELETE, Edit::WordDelete),
];

impl Pad {
    /// An edit key is no data, so it forwards nothing.
    pub fn stroke(&self, key: u8, variant: Variant) -> Stroke {
        let forwards = self.forwards(key, variant);
        match self.edit(key, variant) {
            Some(_) if forwards && variant == Variant::ForwardBeforeEdit => Stroke::Forward,
            Some(edit) => Stroke::Edit(edit),
            None if forwards => Stroke::Forward,
            None => Stroke::Text,
        }
    }

    fn forwards(&self, key: u8, variant: Variant) -> bool {
        let set = sets::forwarding(key, variant);
        let control = variant == Variant::Forward64All && key < 32;
        let set = if control { set | 64 } else { set };
        self.parameters.has(number::FORWARDING, set)
    }

    /// Only while editing is on; 0 names no key.
    pub fn edit(&self, key: u8, variant: Variant) -> Option<Edit> {
        let editing = self.parameters.get(number::EDITING) == 1;
        let editing = editing || variant == Variant::EditsWithout15;
        let zero = key == 0 && variant != Variant::Key0Edits;
        if !editing || zero {
            return None;
        }
        let mut edits = EDITS;
        if variant == Variant::EditsFromTheLast {
            edits.reverse();
        }
        let known = |parameter| {
            self.parameters.known(parameter) || variant == Variant::WordDeleteWithoutSet
        };
        let found = edits
            .into_iter()
            .find(|&(parameter, _)| known(parameter) && self.parameters.get(parameter) == key);
        found.map(|(_, edit)| edit)
    }

    /// Refusal 10: no room for the key, which neither edits nor forwards.
    pub fn refuses(&self, key: u8, variant: Variant) -> bool {
        let room = match self.stroke(key, variant) {
            Stroke::Text => false,
            Stroke::Forward => variant != Variant::FullRefusesForwarding,
            Stroke::Edit(_) => variant != Variant::FullRefusesEditing,
        };
        self.line.is_full(variant) && !room
    }
}
