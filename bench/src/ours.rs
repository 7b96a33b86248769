//! The terminal under measure, by `host`'s wrapper, with the buffers that it
//! is lent.

use host::terminal::{self, at, Counts, Session, SEPTEMBER};

use crate::size::Size;
use crate::streams::{begin, TO_LINE};

#[derive(Clone)]
pub struct Ours {
    pub session: Session,
    pub chars: Vec<u8>,
    pub attrs: Vec<u8>,
    pub marks: Vec<u8>,
    pub reply: Vec<u8>,
}

impl Ours {
    /// A new screen of September's edition, with option 20 on.
    pub fn open(size: Size) -> Ours {
        let zeros = || vec![0; size.cells()];
        let (mut chars, mut attrs, mut marks) = (zeros(), zeros(), zeros());
        let (columns, lines) = (size.columns, size.lines);
        let session = terminal::open(
            columns, lines, SEPTEMBER, &mut chars, &mut attrs, &mut marks,
        );
        let mut ours = Ours {
            session: session.expect("the size is one"),
            chars,
            attrs,
            marks,
            reply: vec![0; size.room()],
        };
        for bytes in begin() {
            ours.take(&bytes);
        }
        ours
    }

    /// Has the edit line take the keys.
    pub fn to_line(&mut self) {
        for bytes in TO_LINE {
            self.take(&bytes);
        }
    }

    /// Takes bytes that draw at most one reply.
    pub fn take(&mut self, input: &[u8]) {
        let Ours {
            session,
            chars,
            attrs,
            marks,
            reply,
        } = self;
        let counts = session.host_bytes(input, chars, attrs, marks, reply);
        let taken = counts.expect("the screen is one").taken;
        assert_eq!(taken, input.len(), "host bytes were left");
    }

    /// None where the key is refused.
    pub fn key(&mut self, key: u32) -> Option<Counts> {
        let (chars, attrs, marks) = (&mut self.chars, &self.attrs, &mut self.marks);
        let counts = self.session.key(key, chars, attrs, marks, &mut self.reply);
        counts.ok()
    }

    /// Puts the cursor on a cell.
    pub fn go(&mut self, cell: usize) {
        let mut bytes = *self.session.as_bytes();
        let columns = usize::from(bytes[at::WIDTH]);
        bytes[at::X] = (cell % columns) as u8;
        bytes[at::Y] = (cell / columns) as u8;
        self.session = Session::from_bytes(bytes).expect("only its cursor was changed");
    }
}
