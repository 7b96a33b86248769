//! Opens, taken and refused, and what follows a taken one.

use super::Generator;
use crate::edition::Edition;
use crate::pad::parameters::Parameters;
use crate::script::{Line, Opening};
use crate::size::Size;

/// Sizes past their range by one or by much.
const BAD_SIZES: [(u16, u16); 10] = [
    (0, 1),
    (1, 0),
    (0, 0),
    (133, 1),
    (1, 65),
    (133, 64),
    (132, 65),
    (256, 2),
    (2, 257),
    (65_535, 65_535),
];

/// Near the two editions, the same in their low bytes, or far off.
const BAD_EDITIONS: [u16; 9] = [730, 733, 730, 733, 0, 219, 220, 987, 65_535];

/// Rare, since each answer prints the whole screen. None has more than the
/// 7,281 cells that programs keep to.
const LARGE_SIZES: [Size; 10] = [
    Size { m: 130, n: 56 },
    Size { m: 130, n: 56 },
    Size { m: 132, n: 55 },
    Size { m: 113, n: 64 },
    Size { m: 132, n: 1 },
    Size { m: 1, n: 64 },
    Size { m: 80, n: 24 },
    Size { m: 17, n: 17 },
    Size { m: 40, n: 3 },
    Size { m: 3, n: 33 },
];

impl Generator {
    /// Calls on the session that stands before any open.
    pub fn before_open(&mut self) {
        self.size = Size { m: 1, n: 1 };
        self.push(Line::State);
        self.probe();
    }

    /// A call that finds no usable session.
    fn probe(&mut self) {
        match self.rng.below(3) {
            0 => self.send(vec![b'A'], 1),
            1 => self.press(b'A'),
            _ => self.press(0),
        }
    }

    pub fn refused_open(&mut self) {
        match self.rng.below(7) {
            0 | 1 => self.open_bad_size(),
            2 | 3 => self.open_bad_edition(),
            _ => self.open_wrong_buffers(),
        }
        self.after_refused_open();
    }

    /// A bad size, with or without a bad edition and wrong buffers.
    fn open_bad_size(&mut self) {
        let (m, n) = self.rng.pick(&BAD_SIZES);
        let cells = usize::from(m) * usize::from(n);
        let lengths = match self.rng.once_in(2) {
            true => [cells; 3],
            false => [(); 3].map(|()| self.rng.below(9)),
        };
        let edition = match self.rng.once_in(3) {
            true => self.rng.pick(&BAD_EDITIONS),
            false => self.good_edition(),
        };
        self.push_open(m, n, lengths.map(|length| length.min(8_448)), edition);
    }

    /// A bad edition, with or without wrong buffers.
    fn open_bad_edition(&mut self) {
        let size = self.small_size();
        let cells = size.cells();
        let edition = self.rng.pick(&BAD_EDITIONS);
        let lengths = match self.rng.below(3) {
            0 => [cells, cells, cells - 1],
            1 => [cells + 1; 3],
            _ => [cells; 3],
        };
        self.push_open(size.m.into(), size.n.into(), lengths, edition);
    }

    fn good_edition(&mut self) -> u16 {
        self.rng.pick(&Edition::ALL).number()
    }

    /// One buffer of a wrong length, or some.
    fn open_wrong_buffers(&mut self) {
        let size = self.small_size();
        let cells = size.cells();
        let other = self.rng.pick(&[0, cells - 1, cells + 1, 2 * cells]);
        let mut lengths = [cells; 3];
        lengths[self.rng.below(3)] = other;
        if self.rng.once_in(3) {
            lengths[self.rng.below(3)] = other;
        }
        let edition = self.good_edition();
        self.push_open(size.m.into(), size.n.into(), lengths, edition);
    }

    fn push_open(&mut self, m: u16, n: u16, lengths: [usize; 3], edition: u16) {
        let [chars, attrs, marks] = lengths;
        self.push(Line::Open(Opening {
            m,
            n,
            chars,
            attrs,
            marks,
            edition,
        }));
    }

    /// Buffers of no length let refusal 1 stand alone.
    fn after_refused_open(&mut self) {
        self.size = Size { m: 1, n: 1 };
        self.edition = Edition::default();
        if self.rng.once_in(3) {
            self.push(Line::Chars(Vec::new()));
            self.push(Line::Attrs(Vec::new()));
            self.push(Line::Marks(Vec::new()));
        }
        for _ in 0..self.rng.below(3) {
            self.probe();
        }
    }

    pub fn open(&mut self) {
        let size = match self.rng.below(30) {
            0 => self.rng.pick(&LARGE_SIZES),
            _ => self.small_size(),
        };
        self.open_sized(size);
    }

    pub fn open_sized(&mut self, size: Size) {
        self.size = size;
        self.noted = Parameters::default();
        self.edition = self.rng.pick(&Edition::ALL);
        let edition = self.edition.number();
        self.push_open(size.m.into(), size.n.into(), [size.cells(); 3], edition);
    }

    fn small_size(&mut self) -> Size {
        let (m, n) = match self.rng.weighted(&[2, 2, 3, 10, 4]) {
            0 => (1, 1),
            1 => (1, self.rng.within(2, 7)),
            2 => (self.rng.within(2, 12), 1),
            3 => (self.rng.within(2, 9), self.rng.within(2, 4)),
            _ => (8, 2),
        };
        Size {
            m: m as u8,
            n: n as u8,
        }
    }

    /// DET on, as a rule, facilities agreed, and a form on the screen.
    pub fn set_up(&mut self) {
        match self.rng.below(8) {
            0 => {}
            1 => {
                self.push(Line::Det(true));
                self.agree();
            }
            _ => self.begin_det(),
        }
        match self.rng.below(5) {
            0 => {}
            1 | 2 => self.set_attrs(),
            _ => self.paint(),
        }
    }
}
