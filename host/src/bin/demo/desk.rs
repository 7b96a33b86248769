//! A terminal with a screen and a reply buffer of its own.

use host::refusal::Refusal;
use host::terminal::{self, reply_room, Session, SEPTEMBER};

use crate::form::Run;

pub struct Desk {
    pub session: Session,
    pub chars: Vec<u8>,
    pub attrs: Vec<u8>,
    marks: Vec<u8>,
    reply: Vec<u8>,
}

impl Desk {
    /// For a host that follows September's edition.
    pub fn open(width: usize, height: usize) -> Result<Desk, Refusal> {
        let cells = width * height;
        let (mut chars, mut attrs, mut marks) = (vec![0; cells], vec![0; cells], vec![0; cells]);
        let session = terminal::open(width, height, SEPTEMBER, &mut chars, &mut attrs, &mut marks);
        Ok(Desk {
            session: session.map_err(|(refusal, _)| refusal)?,
            chars,
            attrs,
            marks,
            reply: vec![0; reply_room(width, height)],
        })
    }

    /// Hands on all of the host's bytes; what goes back to the host.
    pub fn host(&mut self, mut input: &[u8]) -> Result<Vec<u8>, Refusal> {
        let (chars, attrs, marks) = (&mut self.chars, &mut self.attrs, &mut self.marks);
        let reply = &mut self.reply;
        let mut replies = Vec::new();
        while !input.is_empty() {
            let counts = self.session.host_bytes(input, chars, attrs, marks, reply)?;
            replies.extend(&reply[..counts.written]);
            input = &input[counts.taken..];
        }
        Ok(replies)
    }

    /// Hands on a key; what goes to the host.
    pub fn key(&mut self, key: u32) -> Result<Vec<u8>, Refusal> {
        let (chars, attrs, marks) = (&mut self.chars, &self.attrs, &mut self.marks);
        let reply = &mut self.reply;
        let counts = self.session.key(key, chars, attrs, marks, reply)?;
        Ok(reply[..counts.written].to_vec())
    }

    pub fn is_protected(&self, cell: usize) -> bool {
        self.attrs[cell] & 0x18 == 0x08
    }

    /// The protected cells, each with its character and its attribute byte.
    pub fn protected(&self) -> Vec<(usize, u8, u8)> {
        let cells = (0..self.chars.len()).filter(|cell| self.is_protected(*cell));
        let whole = cells.map(|cell| (cell, self.chars[cell], self.attrs[cell]));
        whole.collect()
    }

    pub fn text(&self, run: &Run) -> String {
        let start = usize::from(run.y) * self.session.width() + usize::from(run.x);
        let cells = self.chars[start..].iter().take(run.length.into());
        cells.copied().map(char::from).collect()
    }
}
