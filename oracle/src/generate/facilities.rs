//! Facility commands as a host sends them: mostly for all there is, now and
//! then for less.

use super::bytes::subnegotiation;
use super::Generator;
use crate::command::code;
use crate::facilities::{class, governing, own, Bit};
use crate::reply::DET;
use crate::script::Line;
use crate::telnet::{Verb, IAC};
use crate::variant::Variant;

const CLASSES: std::ops::RangeInclusive<u8> = code::EDIT_FACILITIES..=code::FORMAT_FACILITIES;

/// More than any host asks for is agreed to as far as we go.
const ALL: u8 = 255;

impl Generator {
    /// What a host sends first, in a call with room for the answers.
    pub fn begin_det(&mut self) {
        let mut bytes = Vec::new();
        if self.rng.once_in(6) {
            bytes.extend([IAC, Verb::Will.byte(), DET]);
        }
        bytes.extend([IAC, Verb::Do.byte(), DET]);
        self.agree_after(bytes);
    }

    /// While DET is on.
    pub fn agree(&mut self) {
        self.agree_after(Vec::new());
    }

    /// No class, some, or all four.
    fn agree_after(&mut self, mut bytes: Vec<u8>) {
        match self.rng.below(12) {
            0 => {}
            1 => self.agree_some(&mut bytes),
            _ => self.agree_all(&mut bytes),
        }
        if !bytes.is_empty() {
            let room = self.size.room() + 64;
            self.push(Line::Host(bytes, room));
        }
    }

    /// All four classes, mostly whole.
    pub fn agree_all(&mut self, bytes: &mut Vec<u8>) {
        for code in CLASSES {
            match self.rng.below(20) {
                0 => self.facility(bytes, code),
                1 => self.wrong_facility(bytes, code),
                _ => subnegotiation(bytes, DET, &whole(code)),
            }
        }
    }

    fn agree_some(&mut self, bytes: &mut Vec<u8>) {
        for code in CLASSES {
            match self.rng.below(4) {
                0 => {}
                1 => self.facility(bytes, code),
                2 => self.wrong_facility(bytes, code),
                _ => subnegotiation(bytes, DET, &whole(code)),
            }
        }
    }

    fn facility(&mut self, bytes: &mut Vec<u8>, code: u8) {
        let mut inside = vec![code];
        for place in class(code) {
            inside.push(self.partial_map(place));
        }
        subnegotiation(bytes, DET, &inside);
    }

    /// With a byte too few or too many, or with none.
    pub fn wrong_facility(&mut self, bytes: &mut Vec<u8>, code: u8) {
        let mut inside = vec![code];
        for place in class(code) {
            inside.push(self.map(place));
        }
        match self.rng.below(4) {
            0 => inside.truncate(1),
            1 | 2 => _ = inside.pop(),
            _ => inside.push(self.map(0)),
        }
        subnegotiation(bytes, DET, &inside);
    }

    /// A map byte, mostly with all bits.
    pub fn map(&mut self, place: usize) -> u8 {
        match self.rng.below(3) {
            0 => self.partial_map(place),
            _ => ALL,
        }
    }

    /// One bit missing, one bit alone, or any.
    fn partial_map(&mut self, place: usize) -> u8 {
        let bit = self.bit(place);
        match self.rng.weighted(&[5, 4, 3, 1]) {
            0 => ALL - bit,
            1 => bit,
            2 => self.rng.byte(),
            _ => 0,
        }
    }

    /// Mostly one that we have.
    fn bit(&mut self, place: usize) -> u8 {
        let bit = 1 << self.rng.below(8);
        match own(place, self.edition, Variant::None) & bit == 0 && !self.rng.once_in(4) {
            true => self.bit(place),
            false => bit,
        }
    }

    pub fn any_class(&mut self) -> u8 {
        self.rng.within(1, 4) as u8
    }

    /// A class narrowed, what it governs tried, and mostly all agreed again.
    pub fn narrow(&mut self, bytes: &mut Vec<u8>) {
        let code = self.any_class();
        match self.rng.below(8) {
            0 => self.wrong_facility(bytes, code),
            1 | 2 => self.facility(bytes, code),
            _ => self.single_out(bytes, code),
        }
        for _ in 0..self.rng.within(1, 3) {
            self.governed(bytes, code);
        }
        if !self.rng.once_in(5) {
            subnegotiation(bytes, DET, &whole(code));
        }
    }

    /// One of the class's commands and its bit: that bit alone or all but
    /// that, then the command.
    fn single_out(&mut self, bytes: &mut Vec<u8>, class_code: u8) {
        let (code, bit) = self.governed_by(class_code);
        let alone = self.rng.once_in(2);
        let mut inside = vec![class_code];
        for place in class(class_code) {
            inside.push(match (place == bit.0 as usize, alone) {
                (true, true) => bit.mask(),
                (true, false) => ALL - bit.mask(),
                (false, _) => self.map(place),
            });
        }
        subnegotiation(bytes, DET, &inside);
        self.right_parameters(bytes, code);
    }

    /// A command that the class governs, with its bit.
    fn governed_by(&mut self, class_code: u8) -> (u8, Bit) {
        let row = |code| Some((code, governing(code, Variant::None)?));
        let within = |row: &(u8, Bit)| class(class_code).contains(&(row.1 .0 as usize));
        let rows: Vec<(u8, Bit)> = (0..=255).filter_map(row).filter(within).collect();
        self.rng.pick(&rows)
    }

    /// A command that the class governs, seldom with wrong parameters.
    fn governed(&mut self, bytes: &mut Vec<u8>, class_code: u8) {
        let (code, _) = self.governed_by(class_code);
        match self.rng.below(6) {
            0 => self.wrong_parameters(bytes, code),
            _ => self.right_parameters(bytes, code),
        }
    }

    /// DONT 20 and DO 20 again, what is lost by that tried, and mostly all
    /// agreed again.
    pub fn start_again(&mut self, bytes: &mut Vec<u8>) {
        bytes.extend([IAC, Verb::Dont.byte(), DET]);
        if self.rng.once_in(6) {
            let code = self.any_class();
            subnegotiation(bytes, DET, &whole(code));
        }
        bytes.extend([IAC, Verb::Do.byte(), DET]);
        for _ in 0..self.rng.within(1, 4) {
            match self.rng.below(5) {
                0 => self.wrong_command(bytes),
                _ => {
                    let code = self.any_class();
                    self.governed(bytes, code);
                }
            }
        }
        self.mostly_agree(bytes);
    }

    /// After DET has been off.
    pub fn mostly_agree(&mut self, bytes: &mut Vec<u8>) {
        if !self.rng.once_in(8) {
            self.agree_all(bytes);
        }
    }
}

/// A facility command that asks for everything.
pub fn whole(code: u8) -> Vec<u8> {
    let mut inside = vec![code];
    inside.extend(class(code).map(|_| ALL));
    inside
}
