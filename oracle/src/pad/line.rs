//! The edit line: typed text that waits to be sent.

use crate::variant::Variant;

#[derive(Clone, Debug, Default, PartialEq, Eq)]
pub struct EditLine(Vec<u8>);

impl EditLine {
    pub const CAPACITY: usize = 128;

    pub fn bytes(&self) -> &[u8] {
        &self.0
    }

    pub fn is_empty(&self) -> bool {
        self.0.is_empty()
    }

    pub fn is_full(&self, variant: Variant) -> bool {
        let capacity = match variant {
            Variant::Capacity127 => EditLine::CAPACITY - 1,
            Variant::Capacity129 => EditLine::CAPACITY + 1,
            _ => EditLine::CAPACITY,
        };
        self.0.len() >= capacity
    }

    pub fn push(&mut self, byte: u8) {
        self.0.push(byte);
    }

    /// Without its last so many bytes.
    pub fn shorten(&mut self, count: usize) {
        self.0.truncate(self.0.len().saturating_sub(count));
    }

    pub fn clear(&mut self) {
        self.0.clear();
    }

    /// How long the last word is: what is not a space, and the spaces that
    /// follow it.
    pub fn last_word(&self, variant: Variant) -> usize {
        let backwards = || self.0.iter().rev();
        let spaces = backwards().take_while(|&&byte| byte == b' ').count();
        let word = backwards()
            .skip(spaces)
            .take_while(|&&byte| byte != b' ')
            .count();
        match variant {
            Variant::WordKeepsSpaces if spaces > 0 => 0,
            Variant::WordIsSpaces if spaces > 0 => spaces,
            _ => spaces + word,
        }
    }
}
