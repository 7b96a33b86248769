//! A terminal with buffers of its own, for tests.

use oracle::edition::Edition;
use oracle::refusal::Refusal;
use oracle::session::Session;
use oracle::size::{Position, X, Y};
use oracle::terminal::{Buffers, Lent, Outcome, Terminal};
use oracle::watch::Unwatched;

pub struct Bench {
    pub terminal: Terminal,
    pub chars: Vec<u8>,
    pub attrs: Vec<u8>,
    pub marks: Vec<u8>,
    pub room: usize,
    pub reply: Vec<u8>,
}

impl Bench {
    /// An open screen with room for many replies, September's edition.
    pub fn open(m: u16, n: u16) -> Bench {
        Bench::open_in(m, n, 732)
    }

    /// Form F in June's edition, with the cursor at (x, y).
    pub fn june(x: u8, y: u8) -> Bench {
        let mut bench = Bench::form_f(x, y);
        bench.terminal.session = Session {
            edition: Edition::June,
            agreed: Default::default(),
            ..bench.terminal.session
        };
        bench.agree_all();
        bench
    }

    pub fn open_in(m: u16, n: u16, edition: u16) -> Bench {
        let cells = usize::from(m * n);
        let mut bench = Bench {
            terminal: Terminal::default(),
            chars: vec![b'*'; cells],
            attrs: vec![17; cells],
            marks: vec![1; cells],
            room: 4 * 9 * cells,
            reply: Vec::new(),
        };
        let (terminal, lent) = bench.lend();
        let outcome = terminal.open(m, n, edition, lent.buffers);
        assert_eq!(outcome, Outcome::default());
        bench
    }

    /// A screen of that text and those attributes, DET on, all facilities
    /// agreed.
    pub fn with(m: u16, n: u16, text: &[u8], attrs: &[u8]) -> Bench {
        let mut bench = Bench::open(m, n);
        bench.chars.copy_from_slice(text);
        bench.attrs.copy_from_slice(attrs);
        bench.terminal.session.det = true;
        bench.agree_all();
        bench
    }

    /// The host asks for all facilities.
    pub fn agree_all(&mut self) {
        for ask in [&[1, 255][..], &[2, 255], &[3, 255], &[4, 255, 255]] {
            self.command(ask);
        }
    }

    /// Form F with the cursor at (x, y).
    pub fn form_f(x: u8, y: u8) -> Bench {
        const P: u8 = 8;
        let attrs = [P, P, P, 0, 0, 0, P, P, P, P, P, P, P, 0, 0, 0];
        Bench::with(8, 2, b"WT 70 #4UNIT mg ", &attrs).at(x, y)
    }

    /// An open screen with option 30 on.
    pub fn pad(m: u16, n: u16) -> Bench {
        let mut bench = Bench::open(m, n);
        assert_eq!(bench.host(&[0xff, 253, 30]), [0xff, 251, 30]);
        bench
    }

    pub fn at(mut self, x: u8, y: u8) -> Bench {
        self.terminal.session.cursor = Position { x: X(x), y: Y(y) };
        self
    }

    pub fn suppressed(mut self) -> Bench {
        self.terminal.session.suppressed = true;
        self
    }

    /// Host bytes that must all be taken; the reply.
    pub fn host(&mut self, input: &[u8]) -> Vec<u8> {
        let outcome = self.try_host(input);
        assert_eq!((outcome.refusal, outcome.taken), (None, input.len()));
        self.reply[..outcome.written].to_vec()
    }

    pub fn try_host(&mut self, input: &[u8]) -> Outcome {
        let (terminal, lent) = self.lend();
        terminal.host(lent, input, &mut Unwatched)
    }

    /// A key that must be taken; the reply.
    pub fn key(&mut self, key: u8) -> Vec<u8> {
        let outcome = self.try_key(key);
        assert_eq!((outcome.refusal, outcome.taken), (None, 1));
        self.reply[..outcome.written].to_vec()
    }

    pub fn try_key(&mut self, key: u8) -> Outcome {
        let (terminal, lent) = self.lend();
        terminal.key(lent, key, &mut Unwatched)
    }

    fn lend(&mut self) -> (&mut Terminal, Lent<'_>) {
        self.reply = vec![0xa5; self.room];
        let buffers = Buffers {
            chars: &mut self.chars,
            attrs: &mut self.attrs,
            marks: &mut self.marks,
        };
        let lent = Lent {
            buffers,
            reply: &mut self.reply,
        };
        (&mut self.terminal, lent)
    }

    /// A DET subcommand that must be taken; the reply.
    pub fn command(&mut self, inside: &[u8]) -> Vec<u8> {
        self.host(&subcommand(inside))
    }

    /// A message of option 30 that must be taken; the reply.
    pub fn message(&mut self, inside: &[u8]) -> Vec<u8> {
        self.host(&subnegotiation(30, inside))
    }

    /// Pairs set by SET, which draws no reply.
    pub fn set(mut self, pairs: &[u8]) -> Bench {
        let inside = [&[0], pairs].concat();
        assert_eq!(self.message(&inside), []);
        self
    }

    /// Keys that must all be taken and draw no reply.
    pub fn keys(&mut self, keys: &[u8]) {
        for &key in keys {
            assert_eq!(self.key(key), [], "key {key}");
        }
    }

    pub fn edit_line(&self) -> &[u8] {
        self.terminal.session.pad.line.bytes()
    }

    pub fn parameter(&self, number: u8) -> u8 {
        self.terminal.session.pad.parameters.get(number)
    }

    pub fn agreed(&self) -> [u8; 5] {
        self.terminal.session.agreed.0
    }

    pub fn cursor(&self) -> (u8, u8) {
        let cursor = self.terminal.session.cursor;
        (cursor.x.0, cursor.y.0)
    }

    pub fn line(&self, y: usize) -> &str {
        let m = usize::from(self.terminal.session.size.m);
        std::str::from_utf8(&self.chars[y * m..][..m]).expect("screen characters are ASCII")
    }
}

pub fn subcommand(inside: &[u8]) -> Vec<u8> {
    subnegotiation(20, inside)
}

/// IAC SB, the option, the bytes with 255 doubled, IAC SE.
pub fn subnegotiation(option: u8, inside: &[u8]) -> Vec<u8> {
    let mut bytes = vec![0xff, 0xfa, option];
    for &byte in inside {
        bytes.push(byte);
        if byte == 0xff {
            bytes.push(byte);
        }
    }
    bytes.extend([0xff, 0xf0]);
    bytes
}

/// An ERROR as the terminal sends it.
pub fn error(code: u8, number: u8) -> Vec<u8> {
    subcommand(&[41, code, number])
}

pub fn refused(refusal: Refusal) -> Outcome {
    Outcome {
        refusal: Some(refusal),
        ..Outcome::default()
    }
}
