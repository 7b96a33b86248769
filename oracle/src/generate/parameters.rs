//! Parameters of each command, mostly good ones.

use super::Generator;
use crate::command::{code, parameter_count};
use crate::facilities::class;

impl Generator {
    /// As many as the code takes; a few where it is unknown.
    pub fn parameters(&mut self, code: u8) -> Vec<u8> {
        match code {
            code::EDIT_FACILITIES..=code::FORMAT_FACILITIES => {
                class(code).map(|place| self.map(place)).collect()
            }
            code::MOVE_CURSOR => self.position_parameters(),
            code::SKIP_TO_LINE => vec![self.skip_parameter(self.size.n)],
            code::SKIP_TO_CHAR => vec![self.skip_parameter(self.size.m)],
            code::FORMAT_DATA => self.format_parameters(),
            code::REPEAT => self.repeat_parameters(),
            code::SUPPRESS_PROTECTION => vec![self.suppress_parameter()],
            _ => {
                let count = parameter_count(code).unwrap_or_else(|| self.rng.below(4));
                (0..count).map(|_| self.edge_byte()).collect()
            }
        }
    }

    /// Off the screen in x, in y or in both, or on it.
    fn position_parameters(&mut self) -> Vec<u8> {
        let (mut x, mut y) = self.position();
        let beyond = self.rng.below(8);
        if beyond == 0 || beyond == 2 {
            x = self.rng.pick(&[self.size.m, self.size.m + 1, 255]);
        }
        if beyond == 1 || beyond == 2 {
            y = self.rng.pick(&[self.size.n, self.size.n + 1, 255]);
        }
        vec![x, y]
    }

    /// On the screen or past it, once or many times round.
    fn skip_parameter(&mut self, length: u8) -> u8 {
        let rounds = (255 / length).min(4);
        match self.rng.below(6) {
            0 => length - 1,
            1 => length,
            2 => self.rng.pick(&[0, 1, length + 1, 254, 255]),
            3 => length * self.rng.within(1, rounds.into()) as u8,
            4 => self.rng.byte(),
            _ => self.rng.below(length.into()) as u8,
        }
    }

    fn format_parameters(&mut self) -> Vec<u8> {
        let map = match self.rng.below(6) {
            0 => self.rng.byte(),
            1 => self.rng.pick(&[0x20, 0x28, 0x40, 0x80, 0xff]),
            _ => self.rng.pick(&[0, 8, 16, 24, 7, 15, 31]),
        };
        let more = match self.rng.below(8) {
            0 => self.rng.pick(&[1, 128, 255]),
            _ => 0,
        };
        let cells = self.size.cells();
        let count = match self.rng.below(6) {
            0 => cells,
            1 => cells + 1,
            2 => self.rng.pick(&[0, 1, 256, 257, 65_535]),
            _ => self.rng.below(cells + 1),
        };
        let [high, low] = (count as u16).to_be_bytes();
        vec![map, more, high, low]
    }

    fn repeat_parameters(&mut self) -> Vec<u8> {
        let count = match self.rng.below(5) {
            0 => self.rng.pick(&[0, 0, 1, 255]),
            1 => self.size.cells().min(255) as u8,
            _ => self.rng.within(1, 5) as u8,
        };
        let character = match self.rng.below(6) {
            0 => self.rng.pick(&[0, 31, 127, 127, 128, 255]),
            _ => self.character(),
        };
        vec![count, character]
    }

    fn suppress_parameter(&mut self) -> u8 {
        match self.rng.below(8) {
            0 => self.rng.pick(&[0, 1, 250, 255]),
            1 => 251,
            2 => 252,
            3 | 4 => 253,
            _ => 254,
        }
    }
}
