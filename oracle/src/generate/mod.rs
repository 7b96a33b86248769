//! Random scripts. Most calls in them are taken, so that deep states are
//! reached; the rest seek out the refusals.

mod bytes;
mod facilities;
mod keys;
mod lines;
mod marks;
mod opening;
mod pad;
mod parameters;
mod raw;

use crate::edition::Edition;
use crate::pad::parameters::Parameters;
use crate::rng::Rng;
use crate::script::Line;
use crate::size::Size;
use crate::telnet::IAC;

/// About that many calls, the same for the same seed.
pub fn script(seed: u64, calls: usize) -> Vec<Line> {
    let mut generator = Generator::new(seed);
    generator.before_open();
    while generator.calls < calls {
        match generator.rng.once_in(4) {
            true => generator.pad_episode(calls),
            false => generator.episode(calls),
        }
    }
    generator.lines
}

struct Generator {
    rng: Rng,
    lines: Vec<Line>,
    calls: usize,
    size: Size,
    edition: Edition,
    /// Option 30's parameters as the script has set them, unless a call was
    /// refused or cut short.
    noted: Parameters,
    keys: Sweep,
    line_keys: Sweep,
    june_codes: Sweep,
    september_codes: Sweep,
}

/// Roughly how many short replies those bytes draw.
fn replies(bytes: &[u8]) -> usize {
    bytes.iter().filter(|&&byte| byte == IAC).count() / 2
}

/// Passes through all 256 values in a scattered order.
struct Sweep(u8);

impl Sweep {
    fn next(&mut self) -> u8 {
        self.0 = self.0.wrapping_add(97);
        self.0
    }
}

impl Generator {
    fn new(seed: u64) -> Generator {
        let mut rng = Rng::new(seed);
        let mut sweep = || Sweep(rng.byte());
        let (keys, line_keys) = (sweep(), sweep());
        let (june_codes, september_codes) = (sweep(), sweep());
        Generator {
            rng,
            lines: Vec::new(),
            calls: 0,
            size: Size::default(),
            edition: Edition::default(),
            noted: Parameters::default(),
            keys,
            line_keys,
            june_codes,
            september_codes,
        }
    }

    fn push(&mut self, line: Line) {
        self.calls += usize::from(line.is_call());
        self.lines.push(line);
    }

    /// One screen from its opening on.
    fn episode(&mut self, calls: usize) {
        if self.rng.once_in(3) {
            self.refused_open();
        }
        self.open();
        self.set_up();
        let steps = match self.size.cells() {
            0..=64 => self.rng.within(10, 50),
            65..=400 => self.rng.within(8, 25),
            _ => self.rng.within(3, 6),
        };
        for _ in 0..steps {
            if self.calls < calls {
                self.step();
            }
        }
    }

    fn step(&mut self) {
        match self
            .rng
            .weighted(&[60, 22, 5, 4, 2, 5, 3, 2, 7, 3, 2, 2, 5, 3, 1])
        {
            0 => self.stream(),
            1 => self.key_burst(),
            2 => self.push(Line::State),
            3 => self.set_attrs(),
            4 => self.set_chars(),
            5 => self.set_cursor(),
            6 => self.set_suppress(),
            7 => self.without_det(),
            8 => self.spoil(),
            9 => self.half_read(),
            10 => self.paint(),
            11 => self.agree(),
            12 => self.touch(),
            13 => self.set_marks(),
            _ => self.empty_call(),
        }
    }

    /// Host bytes in one call, or cut anywhere over several.
    fn stream(&mut self) {
        let atoms = self.rng.pick(&[1, 2, 3, 4, 6, 9, 14]);
        let mut bytes = Vec::new();
        for _ in 0..atoms {
            self.atom(&mut bytes);
        }
        let cuts = self.rng.pick(&[0, 0, 0, 1, 1, 2, 3]);
        let replies = replies(&bytes).max(atoms);
        self.send_cut(bytes, cuts, replies);
    }

    fn send_cut(&mut self, mut bytes: Vec<u8>, cuts: usize, replies: usize) {
        for _ in 0..cuts {
            let rest = bytes.split_off(self.rng.below(bytes.len() + 1));
            self.send(bytes, replies);
            if self.rng.once_in(3) {
                self.push(Line::State);
            }
            bytes = rest;
        }
        self.send(bytes, replies);
    }

    fn send(&mut self, bytes: Vec<u8>, replies: usize) {
        let room = self.room(replies);
        self.push(Line::Host(bytes, room));
    }

    fn empty_call(&mut self) {
        self.send(Vec::new(), 0);
    }

    /// A reply buffer: enough for so many short replies, or just enough to
    /// be taken, or just not.
    fn room(&mut self, replies: usize) -> usize {
        let least = self.size.room();
        let lower = 7 * self.size.cells() + 2;
        let room = match self.rng.weighted(&[8, 3, 1, 1, 8, 26, 8]) {
            0 => least,
            1 => least + 1,
            2 => least - 1,
            3 => self.rng.pick(&[0, 1, least / 2, lower - 1, lower, lower]),
            4 => least + self.rng.within(2, 24),
            5 => least + 16 * replies,
            _ => least * self.rng.within(2, 3),
        };
        room.min(80_000)
    }

    /// A byte at or near an edge of some rule, or any.
    fn edge_byte(&mut self) -> u8 {
        let (m, n) = (self.size.m, self.size.n);
        const EDGES: [u8; 10] = [31, 32, 126, 127, 128, 240, 250, 254, 255, 255];
        match self.rng.below(4) {
            0 => self.rng.byte(),
            1 => self.rng.pick(&[m - 1, m, m + 1, n - 1, n, n + 1]),
            2 => self.rng.pick(&[0, 0, 1, 2, 3, 4]),
            _ => self.rng.pick(&EDGES),
        }
    }

    /// A character that may stand on the screen.
    fn character(&mut self) -> u8 {
        match self.rng.below(3) {
            0 => self.rng.within(32, 126) as u8,
            1 => self.rng.pick(b"ABCXYZabcxyz"),
            _ => self.rng.pick(b"0189 +-.,/:@[`{~!"),
        }
    }

    /// A position on the screen, often at an edge.
    fn position(&mut self) -> (u8, u8) {
        let (last_x, last_y) = (self.size.m - 1, self.size.n - 1);
        let x = self.rng.below(usize::from(self.size.m)) as u8;
        let y = self.rng.below(usize::from(self.size.n)) as u8;
        match self.rng.weighted(&[6, 2, 1, 1, 1]) {
            0 => (x, y),
            1 => (last_x, last_y),
            2 => (last_x, y),
            3 => (0, y),
            _ => (x, last_y),
        }
    }
}
