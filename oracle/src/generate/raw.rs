//! Lines that overwrite the session and the buffers, soundly or not.

use super::Generator;
use crate::reply::DET;
use crate::script::Line;
use crate::telnet::{Verb, IAC, SE};

/// Few values, some with bits that FORMAT DATA never sets.
const RAW_PALETTE: [u8; 10] = [0, 8, 8, 16, 24, 24, 0x20, 0x28, 0xe8, 0xf7];

impl Generator {
    /// Runs of a few values over the whole screen.
    pub fn set_attrs(&mut self) {
        let kinds = self.rng.within(1, 3);
        let kinds: Vec<u8> = (0..kinds).map(|_| self.rng.pick(&RAW_PALETTE)).collect();
        let longest = self.rng.pick(&[1, 3, 8]);
        let mut attrs = Vec::new();
        while attrs.len() < self.size.cells() {
            let kind = self.rng.pick(&kinds);
            let run = self.rng.within(1, longest);
            attrs.extend(vec![kind; run]);
        }
        attrs.truncate(self.size.cells());
        self.push(Line::Attrs(attrs));
    }

    /// None, all, a few, or many.
    pub fn set_marks(&mut self) {
        let one_in = self.rng.pick(&[1, 2, 5, 5]);
        let bare = self.rng.once_in(4);
        let cells = 0..self.size.cells();
        let marks = cells.map(|_| u8::from(!bare && self.rng.once_in(one_in)));
        let marks = marks.collect();
        self.push(Line::Marks(marks));
    }

    pub fn set_chars(&mut self) {
        let chars = self.screenful();
        self.push(Line::Chars(chars));
    }

    fn screenful(&mut self) -> Vec<u8> {
        (0..self.size.cells()).map(|_| self.character()).collect()
    }

    pub fn set_cursor(&mut self) {
        let (x, y) = self.position();
        self.push(Line::Cursor(x, y));
    }

    pub fn set_suppress(&mut self) {
        let on = self.rng.once_in(2);
        self.push(Line::Suppress(on));
    }

    /// DET off for a few calls: what the keys and the host can do then.
    pub fn without_det(&mut self) {
        self.push(Line::Det(false));
        if self.rng.once_in(3) {
            self.push(Line::Suppress(true));
        }
        for _ in 0..self.rng.within(1, 3) {
            let key = match self.rng.below(5) {
                0 => 13,
                1 => 127,
                _ => self.function_key(),
            };
            self.press(key);
        }
        let mut bytes = Vec::new();
        match self.rng.below(3) {
            0 => {
                let code = self.any_class();
                self.right_parameters(&mut bytes, code);
            }
            _ => self.command(&mut bytes),
        }
        if self.rng.once_in(2) {
            self.negotiation(&mut bytes);
        }
        match self.rng.below(4) {
            0 | 1 => bytes.extend([IAC, Verb::Dont.byte(), DET]),
            2 => bytes.extend([IAC, Verb::Do.byte(), DET]),
            _ => {}
        }
        self.send(bytes, 2);
        self.push(Line::Det(true));
        if self.rng.once_in(2) {
            self.agree();
        }
    }

    /// A subnegotiation left open while its count is overwritten.
    pub fn half_read(&mut self) {
        let bytes = self.unfinished();
        self.send_cut(bytes, 1, 1);
        self.push(Line::State);
        if self.rng.once_in(3) {
            let count = self.rng.below(7) as u8;
            self.push(Line::Held(count));
        }
        let mut rest = Vec::new();
        match self.rng.below(3) {
            0 => rest.extend([IAC, SE]),
            1 => rest.extend([self.edge_byte(), IAC, SE]),
            _ => self.atom(&mut rest),
        }
        self.send(rest, 1);
        self.push(Line::State);
    }

    /// One or two things that calls are refused for, a few calls, and all
    /// mended again.
    pub fn spoil(&mut self) {
        for _ in 0..self.rng.within(1, 2) {
            match self.rng.below(8) {
                0 => self.spoil_length(),
                1 | 2 => self.spoil_character(),
                3 => self.spoil_cursor(),
                4 => self.spoil_held(),
                5 | 6 => self.spoil_marks(),
                _ => self.spoil_pad(),
            }
        }
        for _ in 0..self.rng.within(1, 2) {
            self.refused_call();
        }
        self.set_chars();
        self.set_attrs();
        self.set_marks();
        self.set_cursor();
        let count = self.rng.pick(&[0, 0, 0, 0, 0, 1, 3, 6]);
        self.push(Line::Held(count));
        if !self.fits_pad() {
            self.push(Line::Pad(false));
        }
    }

    /// A wrong length, and often a wrong character besides.
    fn spoil_length(&mut self) {
        let mut buffer = self.screenful();
        match self.rng.below(4) {
            0 => buffer.push(self.rng.pick(b"A\x7f")),
            1 => _ = buffer.pop(),
            2 => buffer.clear(),
            _ => buffer.extend(vec![31; 7]),
        }
        buffer.truncate(8_448);
        match self.rng.below(3) {
            0 => self.push(Line::Attrs(buffer)),
            _ => self.push(Line::Chars(buffer)),
        }
    }

    fn spoil_character(&mut self) {
        let mut chars = self.screenful();
        let cell = self.rng.below(chars.len());
        chars[cell] = self.rng.pick(&[0, 31, 127, 128, 255]);
        self.push(Line::Chars(chars));
    }

    /// A mark above 1, or a wrong length.
    fn spoil_marks(&mut self) {
        let mut marks: Vec<u8> = vec![self.rng.below(2) as u8; self.size.cells()];
        let cell = self.rng.below(marks.len());
        match self.rng.below(6) {
            0 => marks.push(self.rng.below(2) as u8),
            1 => _ = marks.pop(),
            2 => marks.push(2),
            _ => marks[cell] = self.rng.pick(&[2, 2, 3, 128, 255]),
        }
        self.push(Line::Marks(marks));
    }

    fn spoil_cursor(&mut self) {
        let (x, y) = self.position();
        let (m, n) = (self.size.m, self.size.n);
        let (x, y) = self.rng.pick(&[(m, y), (x, n), (m, n), (255, 255)]);
        self.push(Line::Cursor(x, y));
    }

    fn spoil_held(&mut self) {
        let count = self.rng.pick(&[7, 7, 8, 128, 255]);
        self.push(Line::Held(count));
    }

    /// Option 30 on, which is unsound on a small screen alone.
    fn spoil_pad(&mut self) {
        self.push(Line::Pad(true));
    }

    pub fn refused_call(&mut self) {
        let room = self.size.room();
        let room = self.rng.pick(&[room, room, room - 1, room / 2]);
        match self.rng.below(3) {
            0 => self.push(Line::Host(vec![b'A', 255], room)),
            1 => self.push(Line::Key(b'A', room)),
            _ => self.push(Line::Key(0, room)),
        }
    }
}
