//! Host bytes: commands, text, negotiation, and sequences gone wrong.

use super::Generator;
use crate::command::{code, parameter_count};
use crate::edition::Edition;
use crate::pad::PAD;
use crate::reply::DET;
use crate::telnet::{Verb, IAC, SB, SE};

/// Attributes that FORMAT DATA may set; few, so that fields are long.
const PALETTE: [u8; 8] = [0, 8, 8, 16, 24, 1, 9, 17];

/// Commands after IAC that do nothing.
const IDLE: [u8; 9] = [241, 242, 246, 249, 239, 0, 20, 65, 127];

/// IAC SB, the bytes with 255 doubled.
pub fn begin(bytes: &mut Vec<u8>, option: u8, inside: &[u8]) {
    bytes.extend([IAC, SB]);
    for &byte in [option].iter().chain(inside) {
        bytes.push(byte);
        if byte == IAC {
            bytes.push(IAC);
        }
    }
}

pub fn subnegotiation(bytes: &mut Vec<u8>, option: u8, inside: &[u8]) {
    begin(bytes, option, inside);
    bytes.extend([IAC, SE]);
}

impl Generator {
    /// One thing that a host might send.
    pub fn atom(&mut self, bytes: &mut Vec<u8>) {
        const WEIGHTS: [usize; 18] = [40, 14, 10, 6, 7, 3, 20, 5, 2, 1, 6, 4, 4, 6, 4, 3, 2, 2];
        match self.rng.weighted(&WEIGHTS) {
            0 => self.command(bytes),
            1 => self.move_cursor(bytes),
            2 => self.text(bytes),
            3 => self.control(bytes),
            4 => self.negotiation(bytes),
            5 => bytes.extend([IAC, Verb::Do.byte(), DET]),
            6 => self.wrong_command(bytes),
            7 => self.odd_subnegotiation(bytes),
            8 => bytes.extend([IAC, self.idle_command()]),
            9 => self.noise(bytes),
            10 => self.format(bytes),
            11 => self.thrown_away(bytes),
            12 => self.suppress(bytes),
            13 => self.narrow(bytes),
            14 => self.whole_lines(bytes),
            15 => self.modified(bytes),
            16 => self.other_edition(bytes),
            _ => self.start_again(bytes),
        }
    }

    /// A form by commands: text all over, then fields from the first cell
    /// on, some with text of their own.
    pub fn paint(&mut self) {
        let mut bytes = Vec::new();
        for _ in 0..self.size.cells().min(40) {
            let character = self.character();
            bytes.push(character);
        }
        let mut cell = 0;
        while cell < self.size.cells() && bytes.len() < 500 {
            let count = self.rng.within(1, 6).min(self.size.cells() - cell);
            self.format_at(&mut bytes, cell, count);
            if self.rng.once_in(2) {
                self.text(&mut bytes);
            }
            cell += count + self.rng.below(3);
        }
        self.send(bytes, 1);
    }

    /// A known command with the right number of parameters.
    pub fn command(&mut self, bytes: &mut Vec<u8>) {
        let code = self.known_code();
        self.right_parameters(bytes, code);
    }

    pub fn right_parameters(&mut self, bytes: &mut Vec<u8>, code: u8) {
        let inside = self.inside(code);
        subnegotiation(bytes, DET, &inside);
    }

    /// A command with its parameters, by this edition's code.
    pub fn det(&self, bytes: &mut Vec<u8>, meaning: u8, parameters: &[u8]) {
        let inside = [&[self.code(meaning)], parameters].concat();
        subnegotiation(bytes, DET, &inside);
    }

    /// What an edition lacks goes by September's code.
    fn code(&self, meaning: u8) -> u8 {
        self.edition.code(meaning).unwrap_or(meaning)
    }

    /// Those with most cases more often; ERASE SCREEN, which ends every
    /// form, more seldom, and what the edition lacks.
    fn known_code(&mut self) -> u8 {
        loop {
            let code = match self.rng.below(4) {
                0 => self.rng.pick(&[6, 7, 7, 12, 12, 15, 16, 19, 23, 26, 37]),
                _ => self.rng.within(1, 41) as u8,
            };
            let spared = code == code::ERASE_SCREEN || self.edition.code(code).is_none();
            let spared = spared && !self.rng.once_in(4);
            if parameter_count(code).is_some() && !spared {
                return code;
            }
        }
    }

    fn inside(&mut self, code: u8) -> Vec<u8> {
        let mut inside = vec![self.code(code)];
        inside.extend(self.parameters(code));
        inside
    }

    /// A host that follows the other edition.
    fn other_edition(&mut self, bytes: &mut Vec<u8>) {
        let own = self.edition;
        self.edition = match own {
            Edition::June => Edition::September,
            Edition::September => Edition::June,
        };
        self.command(bytes);
        self.edition = own;
    }

    fn suppress(&mut self, bytes: &mut Vec<u8>) {
        let inside = self.inside(code::SUPPRESS_PROTECTION);
        subnegotiation(bytes, DET, &inside);
    }

    fn move_cursor(&mut self, bytes: &mut Vec<u8>) {
        let (x, y) = self.position();
        subnegotiation(bytes, DET, &[code::MOVE_CURSOR, x, y]);
    }

    fn format(&mut self, bytes: &mut Vec<u8>) {
        let (x, y) = self.position();
        let cell = usize::from(y) * usize::from(self.size.m) + usize::from(x);
        let remain = self.size.cells() - cell;
        let count = match self.rng.below(6) {
            0 => remain,
            1 => remain + 1,
            2 => 0,
            _ => self.rng.within(1, 8).min(remain),
        };
        self.format_at(bytes, cell, count);
    }

    fn format_at(&mut self, bytes: &mut Vec<u8>, cell: usize, count: usize) {
        let at = self.size.position(cell);
        let [high, low] = (count as u16).to_be_bytes();
        let map = self.rng.pick(&PALETTE);
        subnegotiation(bytes, DET, &[code::MOVE_CURSOR, at.x.0, at.y.0]);
        self.det(bytes, code::FORMAT_DATA, &[map, 0, high, low]);
    }

    pub fn text(&mut self, bytes: &mut Vec<u8>) {
        let length = match self.rng.below(12) {
            0 => self.size.cells().min(300) + 1,
            _ => self.rng.within(1, 6),
        };
        for _ in 0..length {
            let character = self.character();
            bytes.push(character);
        }
    }

    /// Data bytes that are no characters, and some that do nothing.
    fn control(&mut self, bytes: &mut Vec<u8>) {
        for _ in 0..self.rng.within(1, 3) {
            match self.rng.below(5) {
                0 => bytes.push(13),
                1 => bytes.push(10),
                2 => bytes.push(8),
                3 => bytes.extend([IAC, IAC]),
                _ => bytes.push(self.idle_data()),
            }
        }
    }

    fn idle_data(&mut self) -> u8 {
        match self.rng.below(3) {
            0 => self.rng.pick(&[0, 7, 9, 11, 12, 31]),
            1 => self.rng.below(32) as u8,
            _ => self.rng.within(127, 254) as u8,
        }
    }

    fn option(&mut self) -> u8 {
        match self.rng.below(4) {
            0 => DET,
            1 => self.rng.pick(&[255, 240, 250, 19, 21, PAD]),
            _ => self.rng.byte(),
        }
    }

    /// DET is seldom left off.
    pub fn negotiation(&mut self, bytes: &mut Vec<u8>) {
        let (verb, option) = (self.rng.pick(&Verb::ALL), self.option());
        bytes.extend([IAC, verb.byte(), option]);
        if verb == Verb::Dont && option == DET && !self.rng.once_in(4) {
            self.command(bytes);
            bytes.extend([IAC, Verb::Do.byte(), DET]);
            self.mostly_agree(bytes);
        }
    }

    pub fn idle_command(&mut self) -> u8 {
        match self.rng.below(4) {
            0 => SE,
            1 => self.rng.below(240) as u8,
            _ => self.rng.pick(&IDLE),
        }
    }

    /// A code of any kind with a number of parameters of any kind.
    pub fn wrong_command(&mut self, bytes: &mut Vec<u8>) {
        let inside = match self.rng.below(6) {
            0 | 1 => {
                let code = self.rng.within(1, 41) as u8;
                self.inside(code)
            }
            2 => {
                let code = self.rng.pick(&[5, 36, 36, 37, 38, 41, 255]);
                self.inside(code)
            }
            _ => self.swept(),
        };
        self.spoilt(bytes, inside);
    }

    /// Any code, with parameters for what it means.
    fn swept(&mut self) -> Vec<u8> {
        let code = match self.edition {
            Edition::June => self.june_codes.next(),
            Edition::September => self.september_codes.next(),
        };
        let mut inside = vec![code];
        inside.extend(self.parameters(self.edition.meaning(code)));
        inside
    }

    pub fn wrong_parameters(&mut self, bytes: &mut Vec<u8>, code: u8) {
        let inside = self.inside(code);
        self.spoilt(bytes, inside);
    }

    fn spoilt(&mut self, bytes: &mut Vec<u8>, mut inside: Vec<u8>) {
        match self.rng.weighted(&[4, 6, 6, 4, 2, 1, 2]) {
            0 => inside.truncate(1),
            1 => _ = inside.pop(),
            2 => inside.push(self.edge_byte()),
            3 => self.lengthen(&mut inside, 2, 6),
            4 => self.lengthen(&mut inside, 7, 30),
            5 => self.lengthen(&mut inside, 250, 270),
            _ => {}
        }
        subnegotiation(bytes, DET, &inside);
    }

    fn lengthen(&mut self, inside: &mut Vec<u8>, least: usize, most: usize) {
        for _ in 0..self.rng.within(least, most) {
            let byte = self.edge_byte();
            inside.push(byte);
        }
    }

    /// Another option's, or with no option byte at all.
    fn odd_subnegotiation(&mut self, bytes: &mut Vec<u8>) {
        match self.rng.below(4) {
            0 => bytes.extend([IAC, SB, IAC, SE]),
            1 => begin(bytes, IAC, &[]),
            _ => {}
        }
        let code = self.known_code();
        let inside = self.inside(code);
        let option = self.option();
        subnegotiation(bytes, option, &inside);
    }

    /// A subnegotiation broken off by another IAC command.
    fn thrown_away(&mut self, bytes: &mut Vec<u8>) {
        let code = self.known_code();
        let mut inside = self.inside(code);
        inside.truncate(self.rng.within(0, inside.len()));
        match self.rng.below(4) {
            0 => bytes.extend([IAC, SB]),
            _ => begin(bytes, DET, &inside),
        }
        self.cut_off(bytes);
    }

    /// What throws a subnegotiation away.
    pub fn cut_off(&mut self, bytes: &mut Vec<u8>) {
        match self.rng.below(4) {
            0 => bytes.extend([IAC, self.rng.pick(&IDLE)]),
            1 => self.negotiation(bytes),
            2 => self.odd_subnegotiation(bytes),
            _ => self.command(bytes),
        }
    }

    /// The start of a sequence, left open.
    pub fn unfinished(&mut self) -> Vec<u8> {
        match self.rng.below(8) {
            0 => vec![IAC],
            1 => vec![IAC, SB],
            2 => vec![IAC, SB, IAC],
            3 => vec![IAC, self.rng.pick(&Verb::ALL).byte()],
            _ => self.unfinished_subnegotiation(),
        }
    }

    /// Up to more bytes than any command takes.
    fn unfinished_subnegotiation(&mut self) -> Vec<u8> {
        let mut bytes = Vec::new();
        let code = self.known_code();
        let mut inside = self.inside(code);
        self.lengthen(&mut inside, 0, 4);
        inside.truncate(self.rng.within(0, inside.len()));
        let option = match self.rng.below(4) {
            0 => self.option(),
            _ => DET,
        };
        begin(&mut bytes, option, &inside);
        if self.rng.once_in(4) {
            bytes.push(IAC);
        }
        bytes
    }

    fn noise(&mut self, bytes: &mut Vec<u8>) {
        const TELLING: [u8; 10] = [IAC, IAC, SB, SE, DET, 251, 252, 253, 254, 65];
        for _ in 0..self.rng.within(1, 8) {
            let byte = match self.rng.below(3) {
                0 => self.rng.byte(),
                _ => self.rng.pick(&TELLING),
            };
            bytes.push(byte);
        }
    }
}
