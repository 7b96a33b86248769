//! Cells touched in some fields, and what then sends, clears or leaves the
//! marks.

use super::bytes::subnegotiation;
use super::Generator;
use crate::command::code;
use crate::reply::DET;

/// What clears marks, and what one might think does.
const AFTER: [u8; 12] = [20, 21, 23, 29, 30, 31, 32, 33, 34, 35, 35, 36];

impl Generator {
    /// Keys in a few fields, perhaps shifts, then 27.
    pub fn touch(&mut self) {
        for _ in 0..self.rng.within(1, 3) {
            self.touch_field();
        }
        let mut bytes = Vec::new();
        if self.rng.once_in(3) {
            self.shift_somewhere(&mut bytes);
        }
        if self.rng.once_in(4) {
            let code = self.rng.pick(&AFTER);
            self.right_parameters(&mut bytes, code);
        }
        if self.rng.once_in(3) {
            let (x, y) = self.position();
            subnegotiation(&mut bytes, DET, &[code::MOVE_CURSOR, x, y]);
        }
        for _ in 0..self.rng.within(1, 2) {
            self.modified(&mut bytes);
        }
        if self.rng.once_in(2) {
            self.atom(&mut bytes);
        }
        let cuts = self.rng.pick(&[0, 0, 1]);
        self.send_cut(bytes, cuts, 6);
    }

    fn touch_field(&mut self) {
        match self.rng.below(6) {
            0 => self.set_cursor(),
            1 => self.press(8),
            _ => self.press(9),
        }
        for _ in 0..self.rng.within(1, 3) {
            let key = match self.rng.below(6) {
                0 => 127,
                1 => b' ',
                2 => self.rng.pick(b"0159"),
                _ => self.rng.pick(b"ABxy"),
            };
            self.press(key);
        }
    }

    pub fn modified(&mut self, bytes: &mut Vec<u8>) {
        self.right_parameters(bytes, code::TRANSMIT_MODIFIED);
    }

    fn shift_somewhere(&mut self, bytes: &mut Vec<u8>) {
        let (x, y) = self.position();
        subnegotiation(bytes, DET, &[code::MOVE_CURSOR, x, y]);
        let code = self.rng.pick(&[
            code::LINE_INSERT,
            code::LINE_DELETE,
            code::CHAR_INSERT,
            code::CHAR_DELETE,
        ]);
        self.right_parameters(bytes, code);
    }
}
