//! The oracle's core in Rust, with the buffers that it is lent.

use host::terminal::SEPTEMBER;
use oracle::terminal::{Buffers, Lent, Outcome, Terminal};
use oracle::variant::Variant;
use oracle::watch::Unwatched;

use crate::size::Size;
use crate::streams::{begin, TO_LINE};

pub struct RustCore {
    terminal: Terminal,
    pub chars: Vec<u8>,
    pub attrs: Vec<u8>,
    pub marks: Vec<u8>,
    reply: Vec<u8>,
}

impl RustCore {
    /// A new screen of September's edition, with option 20 on.
    pub fn open(size: Size) -> RustCore {
        let mut core = RustCore {
            terminal: Terminal::new(Variant::None),
            chars: vec![0; size.cells()],
            attrs: vec![0; size.cells()],
            marks: vec![0; size.cells()],
            reply: vec![0; size.room()],
        };
        let (columns, lines, edition) = (size.columns as u16, size.lines as u16, SEPTEMBER as u16);
        let buffers = Buffers {
            chars: &mut core.chars,
            attrs: &mut core.attrs,
            marks: &mut core.marks,
        };
        let outcome = core.terminal.open(columns, lines, edition, buffers);
        assert_eq!(outcome.refusal, None, "the size is one");
        for bytes in begin() {
            core.take(&bytes);
        }
        core
    }

    /// Has the edit line take the keys.
    pub fn to_line(&mut self) {
        for bytes in TO_LINE {
            self.take(&bytes);
        }
    }

    /// Takes bytes that draw at most one reply.
    pub fn take(&mut self, input: &[u8]) {
        let buffers = Buffers {
            chars: &mut self.chars,
            attrs: &mut self.attrs,
            marks: &mut self.marks,
        };
        let reply = &mut self.reply;
        let lent = Lent { buffers, reply };
        let outcome = rust_core_host(&mut self.terminal, lent, input);
        assert_eq!(outcome.taken, input.len(), "host bytes were left");
    }
}

/// By its name callgrind knows what to count, however much of the core the
/// compiler puts into it.
#[inline(never)]
fn rust_core_host(terminal: &mut Terminal, lent: Lent, input: &[u8]) -> Outcome {
    terminal.host(lent, input, &mut Unwatched)
}
