//! Keys into the edit line.

use super::super::Generator;
use super::{DONT_30, DO_30};
use crate::pad::line::EditLine;
use crate::pad::message::code;
use crate::pad::parameters::number;
use crate::pad::stroke::EDITS;
use crate::pad::{sets, CR, PAD};
use crate::script::Line;
use crate::variant::Variant;

impl Generator {
    pub fn typing(&mut self) {
        if self.rng.once_in(5) {
            self.set_cursor();
        }
        for _ in 0..self.rng.within(1, 9) {
            let key = self.line_key();
            self.press(key);
        }
    }

    /// Often one that means something by the parameters as they are noted.
    fn line_key(&mut self) -> u8 {
        match self.rng.weighted(&[22, 11, 11, 22, 9, 10, 8, 2, 5]) {
            0 => self.edit_key(),
            1 => self.forwarding_key(),
            2 => self.masked_key(),
            3 => self.character(),
            4 => b' ',
            5 => self.rng.pick(&[0, 8, 10, CR, CR, CR, 127]),
            6 => self.line_keys.next() & 127,
            7 => self.rng.pick(&[128, 143, 144, 255]),
            _ => {
                let parameter = self.rng.pick(&[1, 130, 131]);
                self.noted.get(parameter)
            }
        }
    }

    fn edit_key(&mut self) -> u8 {
        let (parameter, _) = self.rng.pick(&EDITS);
        self.noted.get(parameter)
    }

    fn forwarding_key(&mut self) -> u8 {
        let mask = self.noted.get(number::FORWARDING);
        self.one_of(|key| sets::forwarding(key, Variant::None) & mask != 0)
    }

    fn masked_key(&mut self) -> u8 {
        let mask = self.noted.get(number::ECHO_MASK);
        self.one_of(|key| sets::silencing(key) & mask != 0)
    }

    /// A key of that kind, CR if there is none.
    fn one_of(&mut self, kind: impl Fn(u8) -> bool) -> u8 {
        let keys: Vec<u8> = (0..=127).filter(|&key| kind(key)).collect();
        match keys.is_empty() {
            true => CR,
            false => self.rng.pick(&keys),
        }
    }

    /// Types a line full, and then some keys.
    pub fn full_line(&mut self) {
        self.fresh_line();
        let text = self.fillings();
        let length = EditLine::CAPACITY - self.rng.pick(&[0, 0, 0, 1, 2]);
        for _ in 0..length {
            let key = self.rng.pick(&text);
            self.push(Line::Key(key, self.size.room()));
        }
        for _ in 0..self.rng.within(2, 6) {
            let (key, less) = match self.rng.below(5) {
                0 | 1 => (self.rng.pick(&text), 0),
                2 => (text[0], 1),
                3 => (self.edit_key(), 0),
                _ => (self.line_key(), 0),
            };
            self.push(Line::Key(key, self.size.room() - less));
        }
        let key = self.forwarding_key();
        self.push(Line::Key(key, self.size.room()));
    }

    /// An empty line that most text only fills.
    fn fresh_line(&mut self) {
        let mut bytes = [DONT_30, DO_30].concat();
        let forwarding = self.rng.pick(&[2, 4, 8, 16, 32, 64]);
        let pairs = [(number::FORWARDING, forwarding), (number::EDITING, 1)];
        self.message(&mut bytes, code::SET, &pairs);
        self.push(Line::Det(false));
        self.push(Line::Pad(self.fits_pad()));
        self.push(Line::Host(bytes, 2 * self.size.room()));
    }

    /// What neither edits nor forwards: CR alone, or several characters.
    fn fillings(&mut self) -> Vec<u8> {
        let forwarding = self.noted.get(number::FORWARDING);
        let edits = EDITS.map(|(parameter, _)| self.noted.get(parameter));
        let plain = |key: &u8| {
            let set = sets::forwarding(*key, Variant::None);
            set & forwarding == 0 && !edits.contains(key)
        };
        if self.rng.once_in(3) && plain(&CR) {
            return vec![CR];
        }
        (32..=126).filter(plain).collect()
    }

    /// A good message, noted as it is taken.
    pub fn message(&mut self, bytes: &mut Vec<u8>, code: u8, pairs: &[(u8, u8)]) {
        let mut inside = vec![code];
        for &(parameter, value) in pairs {
            inside.extend([parameter, value]);
            self.noted.set(parameter, value, Variant::None);
        }
        super::super::bytes::subnegotiation(bytes, PAD, &inside);
    }
}
