//! Parameters of option 30 and values for them.

use super::super::Generator;
use crate::pad::parameters::number;

/// Few codes for edit keys, so that parameters share them now and then.
const EDIT_CODES: [u8; 18] = [
    8, 127, 21, 23, 24, 18, 13, 10, 9, 27, 3, 28, b'#', b'@', b'!', b'A', b'7', b' ',
];

/// At and around the ends of some list.
const EDGES: [u8; 14] = [0, 1, 2, 3, 4, 7, 8, 18, 19, 31, 32, 127, 128, 255];

impl Generator {
    pub fn parameter(&mut self) -> u8 {
        const ACTING: [u8; 13] = [2, 3, 3, 13, 13, 15, 16, 17, 18, 19, 20, 20, 129];
        const HELD: [u8; 9] = [1, 1, 5, 12, 22, 130, 130, 131, 132];
        match self.rng.weighted(&[26, 4, 8, 5, 2]) {
            0 => self.rng.pick(&ACTING),
            1 => number::EXTENSION_SET,
            2 => self.rng.below(23) as u8,
            3 => self.rng.pick(&HELD),
            _ => self.rng.pick(&[23, 127, 133, 134, 200, 255]),
        }
    }

    /// Mostly such as let much happen.
    pub fn value(&mut self, parameter: u8) -> u8 {
        if self.rng.once_in(12) {
            return self.rng.byte();
        }
        match parameter {
            number::ECHO | number::EDITING => self.rng.pick(&[1, 1, 1, 1, 0, 2]),
            number::FORWARDING => self.forwarding_value(),
            number::LINE_FEEDS => self.rng.below(9) as u8,
            number::CHARACTER_DELETE..=number::LINE_DISPLAY | number::WORD_DELETE => {
                self.edit_code()
            }
            number::SIGNALS => self.style(),
            number::ECHO_MASK => self.mask(),
            number::EXTENSION_SET => self.rng.pick(&[1, 1, 1, 0, 255, 2]),
            1 | 130 | 131 => self.held_character(),
            0 | 5 | 8 | 12 | 132 => self.rng.pick(&[0, 1, 1, 2]),
            10 | 22 => self.rng.pick(&[0, 1, 80, 255, 255]),
            _ => self.rng.pick(&EDGES),
        }
    }

    fn edit_code(&mut self) -> u8 {
        match self.rng.below(10) {
            0 => self.rng.pick(&[0, 0, 128]),
            1 => self.character(),
            _ => self.rng.pick(&EDIT_CODES),
        }
    }

    /// Seldom with bit 1, by which most text would be forwarded.
    pub fn forwarding_value(&mut self) -> u8 {
        match self.rng.below(8) {
            0 => self.rng.below(129) as u8,
            1 => 1,
            2 => self.rng.pick(&[0, 126, 128]),
            _ => self.rng.pick(&[2, 4, 8, 16, 32, 64]),
        }
    }

    fn style(&mut self) -> u8 {
        match self.rng.below(6) {
            0 => self.rng.pick(&[0, 3, 7, 9, 31, 127]),
            1 => self.rng.pick(&[8, 8, 32, 126]),
            2 => self.character(),
            _ => self.rng.pick(&[1, 2]),
        }
    }

    fn mask(&mut self) -> u8 {
        match self.rng.below(6) {
            0 | 1 => 0,
            2 => self.rng.pick(&[255, 63, 191]),
            3 => self.rng.pick(&[2, 2, 8, 64]),
            _ => 1 << self.rng.below(8),
        }
    }

    /// One that may be typed.
    fn held_character(&mut self) -> u8 {
        match self.rng.below(4) {
            0 => self.rng.pick(&EDGES),
            1 => self.rng.pick(&[2, 17, 19, 31, 126]),
            _ => self.character(),
        }
    }
}
