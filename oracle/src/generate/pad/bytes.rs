//! Host bytes for option 30: messages good and bad, text with CR and LF,
//! and options switched.

use super::super::bytes::{begin, subnegotiation};
use super::super::Generator;
use super::{DONT_20, DONT_30, DO_20, DO_30};
use crate::pad::message::code;
use crate::pad::parameters::number;
use crate::pad::{CR, LF, PAD};
use crate::telnet::{Verb, IAC};

impl Generator {
    /// One thing that a host might send to a PAD.
    pub fn pad_atom(&mut self, bytes: &mut Vec<u8>) {
        match self.rng.weighted(&[24, 14, 20, 10, 8, 5, 3]) {
            0 => self.set(bytes),
            1 => self.any_message(bytes),
            2 => self.lines_of_text(bytes),
            3 => self.send_asked(bytes),
            4 => self.switch_pad(bytes),
            5 => self.switch_det(bytes),
            _ => self.atom(bytes),
        }
    }

    /// Parameters under which much happens.
    pub fn profile(&mut self) {
        let mut bytes = Vec::new();
        let mut pairs = vec![
            (number::ECHO, 1),
            (number::EDITING, 1),
            (number::EXTENSION_SET, 1),
        ];
        for parameter in [3, 13, 16, 17, 18, 19, 20, 129] {
            if !self.rng.once_in(6) {
                pairs.push((parameter, self.value(parameter)));
            }
        }
        for parameter in [1, 12, 130, 131] {
            if self.rng.once_in(3) {
                pairs.push((parameter, self.value(parameter)));
            }
        }
        if self.rng.once_in(4) {
            pairs.push((number::EXTENSION_SET, self.rng.pick(&[0, 255])));
        }
        self.message(&mut bytes, code::SET, &pairs);
        self.send(bytes, 8);
    }

    fn pairs(&mut self, least: usize, most: usize) -> Vec<(u8, u8)> {
        let count = self.rng.within(least, most);
        let mut pairs = Vec::new();
        for _ in 0..count {
            let parameter = self.parameter();
            pairs.push((parameter, self.value(parameter)));
        }
        pairs
    }

    fn set(&mut self, bytes: &mut Vec<u8>) {
        let code = self.rng.pick(&[code::SET, code::SET, code::RESPONSE_SET]);
        let pairs = match self.rng.below(10) {
            0 => self.pairs(0, 0),
            1 => self.pairs(4, 12),
            _ => self.pairs(1, 4),
        };
        self.message(bytes, code, &pairs);
    }

    /// A message of any kind, ended or thrown away.
    pub fn any_message(&mut self, bytes: &mut Vec<u8>) {
        let mut inside = vec![self.any_code()];
        for (parameter, value) in self.pairs(0, 4) {
            inside.extend([parameter, value]);
        }
        match self.rng.weighted(&[6, 8, 5, 1, 1, 3]) {
            0 => inside.push(self.parameter()),
            1 => {
                begin(bytes, PAD, &inside);
                return self.cut_off(bytes);
            }
            2 => self.lengthen_message(&mut inside),
            3 => inside.clear(),
            4 => inside.truncate(1),
            _ => {}
        }
        subnegotiation(bytes, PAD, &inside);
    }

    fn any_code(&mut self) -> u8 {
        match self.rng.below(8) {
            0 => self.rng.pick(&[code::IS, code::RESPONSE_IS]),
            1 => self.rng.pick(&[5, 6, 30, 128, 255]),
            2 | 3 => code::RESPONSE_SET,
            4 => code::SEND,
            _ => code::SET,
        }
    }

    /// Far more bytes than are held, now and then more than 256.
    fn lengthen_message(&mut self, inside: &mut Vec<u8>) {
        let most = self.rng.pick(&[6, 6, 20, 140]);
        for (parameter, value) in self.pairs(3, most) {
            inside.extend([parameter, value]);
        }
        if self.rng.once_in(5) {
            inside.push(number::ECHO);
        }
    }

    fn send_asked(&mut self, bytes: &mut Vec<u8>) {
        let mut inside = vec![code::SEND];
        match self.rng.below(8) {
            0 => inside.extend([self.parameter(), 1]),
            1 => inside.push(self.parameter()),
            _ => {}
        }
        subnegotiation(bytes, PAD, &inside);
    }

    /// CR and LF together, apart, and with something in between.
    fn lines_of_text(&mut self, bytes: &mut Vec<u8>) {
        if self.rng.once_in(2) {
            self.text(bytes);
        }
        match self.rng.below(9) {
            0 => bytes.extend([CR, LF, LF]),
            1 => bytes.extend([CR, 0, LF]),
            2 => bytes.extend([CR, CR, LF]),
            3 => {
                bytes.push(CR);
                self.between(bytes);
                bytes.push(LF);
            }
            4 => bytes.push(self.rng.pick(&[CR, LF])),
            5 => self.across(bytes),
            _ => bytes.extend([CR, LF]),
        }
    }

    /// CR before the PAD works, LF after.
    fn across(&mut self, bytes: &mut Vec<u8>) {
        let (before, after) = self.rng.pick(&[(DONT_30, DO_30), (DO_20, DONT_20)]);
        bytes.extend(before);
        bytes.push(CR);
        bytes.extend(after);
        bytes.push(LF);
    }

    /// Commands that are no data.
    fn between(&mut self, bytes: &mut Vec<u8>) {
        match self.rng.below(4) {
            0 => bytes.extend([IAC, 241]),
            1 => self.set(bytes),
            2 => self.send_asked(bytes),
            _ => bytes.extend(DO_30),
        }
    }

    /// Seldom left off.
    fn switch_pad(&mut self, bytes: &mut Vec<u8>) {
        match self.rng.below(6) {
            0 => bytes.extend([IAC, Verb::Will.byte(), PAD]),
            1 => bytes.extend([IAC, Verb::Wont.byte(), PAD]),
            2 => bytes.extend(DO_30),
            _ => {
                bytes.extend(DONT_30);
                if self.rng.once_in(4) {
                    self.any_message(bytes);
                    self.lines_of_text(bytes);
                    bytes.extend(DONT_30);
                }
                if !self.rng.once_in(8) {
                    bytes.extend(DO_30);
                }
            }
        }
    }

    /// DET on and soon off again.
    fn switch_det(&mut self, bytes: &mut Vec<u8>) {
        bytes.extend(DO_20);
        if self.rng.once_in(3) {
            self.mostly_agree(bytes);
        }
        match self.rng.below(4) {
            0 => self.lines_of_text(bytes),
            1 => self.set(bytes),
            2 => self.switch_pad(bytes),
            _ => self.command(bytes),
        }
        bytes.extend(DONT_20);
    }
}
