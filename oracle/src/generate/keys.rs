//! The operator's keys: all of them, the meaningful ones more often.

use super::Generator;
use crate::script::Line;

impl Generator {
    pub fn press(&mut self, key: u8) {
        let room = self.room(1);
        self.push(Line::Key(key, room));
    }

    /// A few keys in a row, often from a field's start on.
    pub fn key_burst(&mut self) {
        if self.rng.once_in(2) {
            self.press(9);
        }
        for _ in 0..self.rng.within(1, 4) {
            let key = self.key();
            self.press(key);
        }
    }

    fn key(&mut self) -> u8 {
        match self.rng.weighted(&[14, 22, 10, 10, 10, 5, 7, 6, 3, 22]) {
            0 => self.character(),
            1 => self.rng.pick(b"@[`{/:,-+. "),
            2 => self.rng.pick(b"AZaz09"),
            3 => 9,
            4 => 8,
            5 => 13,
            6 => 127,
            7 => self.function_key(),
            8 => self.rng.pick(&[0, 7, 10, 12, 14, 31, 144, 144, 255]),
            _ => self.keys.next(),
        }
    }

    pub fn function_key(&mut self) -> u8 {
        match self.rng.below(2) {
            0 => self.rng.pick(&[128, 143]),
            _ => self.rng.within(128, 143) as u8,
        }
    }
}
