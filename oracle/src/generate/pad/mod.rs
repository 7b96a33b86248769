//! Sessions with option 30, most of them with it on.

mod bytes;
mod keys;
mod values;

use super::Generator;
use crate::pad::{fits, CR, LF, PAD};
use crate::reply::DET;
use crate::script::Line;
use crate::size::Size;
use crate::telnet::{Verb, IAC};
use crate::variant::Variant;

const DO_30: [u8; 3] = [IAC, Verb::Do as u8, PAD];
const DONT_30: [u8; 3] = [IAC, Verb::Dont as u8, PAD];
const DO_20: [u8; 3] = [IAC, Verb::Do as u8, DET];
const DONT_20: [u8; 3] = [IAC, Verb::Dont as u8, DET];

/// Just large enough, mostly, so that answers stay short.
const SIZES: [(u8, u8); 10] = [
    (37, 1),
    (1, 37),
    (1, 37),
    (19, 2),
    (13, 3),
    (10, 4),
    (8, 5),
    (5, 8),
    (7, 6),
    (40, 2),
];

/// One cell too few.
const TOO_SMALL: [(u8, u8); 4] = [(6, 6), (36, 1), (9, 4), (1, 36)];

fn size((m, n): (u8, u8)) -> Size {
    Size { m, n }
}

impl Generator {
    pub fn fits_pad(&self) -> bool {
        fits(self.size.cells(), Variant::None)
    }

    /// One screen from its opening on.
    pub fn pad_episode(&mut self, calls: usize) {
        if self.rng.once_in(8) {
            return self.small_episode();
        }
        let chosen = size(self.rng.pick(&SIZES));
        self.open_sized(chosen);
        self.background();
        self.turn_on();
        self.profile();
        for _ in 0..self.rng.within(8, 24) {
            if self.calls < calls {
                self.pad_step(calls - self.calls);
            }
        }
    }

    /// A screen that is too small for the option.
    fn small_episode(&mut self) {
        let chosen = size(self.rng.pick(&TOO_SMALL));
        self.open_sized(chosen);
        self.send(DO_30.to_vec(), 1);
        self.typing();
        self.push(Line::Pad(true));
        for _ in 0..self.rng.within(1, 2) {
            self.refused_call();
        }
        self.push(Line::Pad(false));
        self.pad_stream();
    }

    /// Guarded cells in the way of echoes, on some screens.
    fn background(&mut self) {
        match self.rng.below(5) {
            0 => self.set_attrs(),
            1 => {
                self.push(Line::Det(true));
                self.paint();
                self.push(Line::Det(false));
            }
            _ => {}
        }
    }

    fn turn_on(&mut self) {
        match self.rng.below(4) {
            0 => self.push(Line::Pad(true)),
            _ => self.send(DO_30.to_vec(), 8),
        }
    }

    /// With so many calls left, which a full line may exceed.
    fn pad_step(&mut self, left: usize) {
        match self
            .rng
            .weighted(&[40, 34, 2, 6, 5, 3, 6, 3, 5, 4, 2, 2, 4])
        {
            0 => self.typing(),
            1 => self.pad_stream(),
            2 if left > 150 => self.full_line(),
            2 => {}
            3 => self.det_between(),
            4 => self.base_step(),
            5 => self.push(Line::State),
            6 => self.half_message(),
            7 => self.flip(),
            8 => self.set_cursor(),
            9 => self.set_suppress(),
            10 => self.set_attrs(),
            11 => self.set_marks(),
            _ => self.parted(),
        }
    }

    /// Anything, after which DET is off again.
    fn base_step(&mut self) {
        self.step();
        self.det_off();
    }

    fn det_off(&mut self) {
        match self.rng.once_in(2) {
            true => self.push(Line::Det(false)),
            false => self.send(DONT_20.to_vec(), 8),
        }
    }

    fn pad_stream(&mut self) {
        let atoms = self.rng.pick(&[1, 2, 3, 4, 6]);
        let mut bytes = Vec::new();
        for _ in 0..atoms {
            self.pad_atom(&mut bytes);
        }
        if self.rng.once_in(4) {
            bytes.extend(DONT_20);
        }
        let cuts = self.rng.pick(&[0, 0, 0, 1, 1, 2]);
        self.send_cut(bytes, cuts, 5 * atoms);
    }

    /// DET on for a while, with a line that waits.
    fn det_between(&mut self) {
        self.typing();
        match self.rng.once_in(3) {
            true => self.push(Line::Det(true)),
            false => self.begin_det(),
        }
        for _ in 0..self.rng.within(1, 3) {
            match self.rng.below(3) {
                0 => self.key_burst(),
                1 => self.stream(),
                _ => self.pad_stream(),
            }
        }
        self.send(DONT_20.to_vec(), 8);
        self.typing();
    }

    /// Keys between the host's CR and LF.
    fn parted(&mut self) {
        let mut bytes = Vec::new();
        self.text(&mut bytes);
        bytes.push(CR);
        self.send(bytes, 8);
        self.typing();
        self.send(vec![LF], 8);
    }

    /// A message cut in two, and something in between.
    fn half_message(&mut self) {
        let mut bytes = Vec::new();
        self.any_message(&mut bytes);
        let rest = bytes.split_off(self.rng.within(3, bytes.len() - 1));
        self.send(bytes, 8);
        match self.rng.below(5) {
            0 => self.typing(),
            1 => {
                let count = self.rng.below(7) as u8;
                self.push(Line::Held(count));
            }
            2 => self.push(Line::Pad(false)),
            3 => self.push(Line::State),
            _ => {}
        }
        if self.rng.once_in(2) {
            self.push(Line::Pad(true));
        }
        self.send(rest, 8);
        self.push(Line::Pad(self.fits_pad()));
    }

    /// The option off for a few calls without a negotiation.
    fn flip(&mut self) {
        self.push(Line::Pad(false));
        match self.rng.below(3) {
            0 => self.typing(),
            1 => self.pad_stream(),
            _ => self.send(DONT_30.to_vec(), 8),
        }
        self.push(Line::Pad(self.fits_pad()));
    }
}
