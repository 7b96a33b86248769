//! Runs a replay script on the terminal, as `docs/REPLAY.md` has it.

use std::io::{self, BufRead, Write};

use crate::refusal::Refusal;
use crate::script::{hex, Line};
use crate::terminal::{self, at, Counts, Reader, Session};

/// What fills the buffers before a call.
const LENT_CHAR: u8 = 0x2a;
const LENT_ATTR: u8 = 0x11;
const LENT_MARK: u8 = 1;
const LENT_REPLY: u8 = 0xa5;

type Outcome = Result<Counts, Refusal>;

/// A terminal with the buffers that a script lends it.
#[derive(Default)]
pub struct Replay {
    session: Session,
    chars: Vec<u8>,
    attrs: Vec<u8>,
    marks: Vec<u8>,
    reply: Vec<u8>,
}

impl Replay {
    /// Does what a line says; its answer, without a newline.
    pub fn answer(&mut self, line: Line) -> String {
        let outcome = match line {
            Line::Open {
                width,
                height,
                chars,
                attrs,
                marks,
                edition,
            } => {
                self.chars = vec![LENT_CHAR; chars];
                self.attrs = vec![LENT_ATTR; attrs];
                self.marks = vec![LENT_MARK; marks];
                self.open(width, height, edition)
            }
            Line::Host { input, room } => self.host(&input, room),
            Line::Key { key, room } => self.key(key, room),
            Line::State => return self.reader_line(),
            setting => {
                self.set(setting);
                return "set".into();
            }
        };
        self.call_line(outcome)
    }

    fn open(&mut self, width: usize, height: usize, edition: usize) -> Outcome {
        self.reply.clear();
        let (chars, attrs, marks) = (&mut self.chars, &mut self.attrs, &mut self.marks);
        let opened = terminal::open(width, height, edition, chars, attrs, marks);
        let (session, outcome) = match opened {
            Ok(session) => (session, Ok(Counts::default())),
            Err((refusal, session)) => (session, Err(refusal)),
        };
        self.session = session;
        outcome
    }

    fn host(&mut self, input: &[u8], room: usize) -> Outcome {
        self.reply = vec![LENT_REPLY; room];
        let (chars, attrs, marks) = (&mut self.chars, &mut self.attrs, &mut self.marks);
        self.session
            .host_bytes(input, chars, attrs, marks, &mut self.reply)
    }

    fn key(&mut self, key: u32, room: usize) -> Outcome {
        self.reply = vec![LENT_REPLY; room];
        let (chars, attrs, marks) = (&mut self.chars, &self.attrs, &mut self.marks);
        self.session.key(key, chars, attrs, marks, &mut self.reply)
    }

    /// The lines that are no calls.
    fn set(&mut self, line: Line) {
        match line {
            Line::Chars(bytes) => self.chars = bytes,
            Line::Attrs(bytes) => self.attrs = bytes,
            Line::Marks(bytes) => self.marks = bytes,
            Line::Cursor { x, y } => {
                self.set_byte(at::X, x);
                self.set_byte(at::Y, y);
            }
            Line::Held(count) => self.set_byte(at::HELD_COUNT, count),
            Line::Det(on) => self.set_byte(at::ON, on),
            Line::Suppress(on) => self.set_byte(at::SUPPRESSED, on),
            Line::Pad(on) => self.set_byte(at::PAD_ON, on),
            Line::Open { .. } | Line::Host { .. } | Line::Key { .. } | Line::State => {}
        }
    }

    fn set_byte(&mut self, place: usize, byte: u8) {
        let mut bytes = *self.session.as_bytes();
        bytes[place] = byte;
        self.session = Session::from_bytes(bytes).expect("no line makes it anything else");
    }

    fn call_line(&self, outcome: Outcome) -> String {
        let (answer, counts) = match outcome {
            Ok(counts) => (0, counts),
            Err(refusal) => (refusal.number(), Counts::default()),
        };
        let (session, cursor) = (&self.session, self.session.cursor());
        format!(
            "{answer} {} {} {} {} {} {} {} {} {} {} {} {} {} {} {} {} {}",
            counts.taken,
            counts.written,
            hex(&self.reply),
            session.width(),
            session.height(),
            cursor.x,
            cursor.y,
            u8::from(session.is_on()),
            u8::from(session.is_suppressed()),
            hex(&self.chars),
            hex(&self.attrs),
            u8::from(session.is_pad_on()),
            hex(session.line()),
            hex(session.parameters()),
            hex(&session.agreed_maps()),
            hex(&self.marks),
            session.edition()
        )
    }

    fn reader_line(&self) -> String {
        let phase = match self.session.reader() {
            Reader::Data => "data -".into(),
            Reader::Iac => "iac -".into(),
            Reader::Will => "will -".into(),
            Reader::Wont => "wont -".into(),
            Reader::Do => "do -".into(),
            Reader::Dont => "dont -".into(),
            Reader::Sb => "sb -".into(),
            Reader::SbIac => "sb-iac -".into(),
            Reader::Sub(option) => format!("sub {option}"),
            Reader::SubIac(option) => format!("sub-iac {option}"),
        };
        let held = hex(self.session.held());
        format!("{phase} {} {held}", self.session.held_count())
    }
}

/// What ended a script before its end.
#[derive(Debug)]
pub enum Failure {
    Input(io::Error),
    Output(io::Error),
}

/// Answers a whole script, line for line, to its end or its first bad line.
pub fn run(input: &mut impl BufRead, output: &mut impl Write) -> Result<(), Failure> {
    let mut replay = Replay::default();
    let mut number = 0;
    while let Some(line) = next_line(input).map_err(Failure::Input)? {
        number += 1;
        let line = Line::parse(&line);
        let bad = line.is_none();
        let answer = match line {
            Some(line) => replay.answer(line),
            None => format!("bad line {number}"),
        };
        writeln!(output, "{answer}").map_err(Failure::Output)?;
        if bad {
            break;
        }
    }
    output.flush().map_err(Failure::Output)
}

/// Without its newline; none at the end.
fn next_line(input: &mut impl BufRead) -> io::Result<Option<Vec<u8>>> {
    let mut line = Vec::new();
    if input.read_until(b'\n', &mut line)? == 0 {
        return Ok(None);
    }
    if line.last() == Some(&b'\n') {
        line.pop();
    }
    Ok(Some(line))
}
