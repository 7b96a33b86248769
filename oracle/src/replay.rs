//! Runs the lines of a script and words the answers.

use std::fmt::Write as _;
use std::io::{self, BufRead, Write};

use crate::script::{push_hex, Line, Opening};
use crate::size::{X, Y};
use crate::telnet::{Phase, Verb};
use crate::terminal::{Buffers, Lent, Outcome, Terminal};
use crate::variant::Variant;
use crate::watch::{Unwatched, Watch};

/// What fills the buffers before a call.
const LENT_CHAR: u8 = 0x2a;
const LENT_ATTR: u8 = 0x11;
const LENT_MARK: u8 = 0x01;
const LENT_REPLY: u8 = 0xa5;

/// A terminal with the buffers that its script lends it.
#[derive(Default)]
pub struct Replay {
    pub terminal: Terminal,
    pub chars: Vec<u8>,
    pub attrs: Vec<u8>,
    pub marks: Vec<u8>,
    pub reply: Vec<u8>,
}

impl Replay {
    pub fn new(variant: Variant) -> Replay {
        Replay {
            terminal: Terminal::new(variant),
            ..Replay::default()
        }
    }

    /// Runs a line; what a call came to, if it is one.
    pub fn run(&mut self, line: &Line, watch: &mut dyn Watch) -> Option<Outcome> {
        let session = &mut self.terminal.session;
        match line {
            Line::Open(open) => return Some(self.open(open)),
            Line::Host(input, room) => {
                let (terminal, lent) = self.lend(*room);
                return Some(terminal.host(lent, input, watch));
            }
            Line::Key(key, room) => {
                let (terminal, lent) = self.lend(*room);
                return Some(terminal.key(lent, *key, watch));
            }
            Line::Chars(bytes) => self.chars.clone_from(bytes),
            Line::Attrs(bytes) => self.attrs.clone_from(bytes),
            Line::Marks(bytes) => self.marks.clone_from(bytes),
            Line::Cursor(x, y) => (session.cursor.x, session.cursor.y) = (X(*x), Y(*y)),
            Line::Held(count) => session.reader.held.count = *count,
            Line::Det(on) => session.det = *on,
            Line::Suppress(on) => session.suppressed = *on,
            Line::Pad(on) => session.pad.on = *on,
            Line::State => {}
        }
        None
    }

    fn open(&mut self, open: &Opening) -> Outcome {
        self.chars = vec![LENT_CHAR; open.chars];
        self.attrs = vec![LENT_ATTR; open.attrs];
        self.marks = vec![LENT_MARK; open.marks];
        let (terminal, lent) = self.lend(0);
        terminal.open(open.m, open.n, open.edition, lent.buffers)
    }

    fn lend(&mut self, room: usize) -> (&mut Terminal, Lent<'_>) {
        self.reply.clear();
        self.reply.resize(room, LENT_REPLY);
        let buffers = Buffers {
            chars: &mut self.chars,
            attrs: &mut self.attrs,
            marks: &mut self.marks,
        };
        let lent = Lent {
            buffers,
            reply: &mut self.reply,
        };
        (&mut self.terminal, lent)
    }

    /// Runs a line and appends its answer, without a newline.
    pub fn answer(&mut self, line: &Line, watch: &mut dyn Watch, text: &mut String) {
        match (self.run(line, watch), line) {
            (Some(outcome), _) => self.push_outcome(outcome, text),
            (None, Line::State) => self.push_state(text),
            (None, _) => text.push_str("set"),
        }
    }

    fn push_outcome(&self, outcome: Outcome, text: &mut String) {
        let session = &self.terminal.session;
        let answer = outcome.refusal.map_or(0, |refusal| refusal.number());
        push(
            text,
            format_args!("{answer} {} {} ", outcome.taken, outcome.written),
        );
        push_hex(text, &self.reply);
        let (size, cursor) = (session.size, session.cursor);
        push(
            text,
            format_args!(" {} {} {} {}", size.m, size.n, cursor.x.0, cursor.y.0),
        );
        let (det, suppressed) = (u8::from(session.det), u8::from(session.suppressed));
        push(text, format_args!(" {det} {suppressed} "));
        push_hex(text, &self.chars);
        text.push(' ');
        push_hex(text, &self.attrs);
        push(text, format_args!(" {} ", u8::from(session.pad.on)));
        push_hex(text, session.pad.line.bytes());
        text.push(' ');
        push_hex(text, session.pad.parameters.values());
        text.push(' ');
        push_hex(text, &session.agreed.0);
        text.push(' ');
        push_hex(text, &self.marks);
        push(text, format_args!(" {}", session.edition.number()));
    }

    fn push_state(&self, text: &mut String) {
        let reader = &self.terminal.session.reader;
        text.push_str(phase_name(reader.phase));
        match reader.phase {
            Phase::Sub(option) | Phase::SubIac(option) => push(text, format_args!(" {option}")),
            _ => text.push_str(" -"),
        }
        push(text, format_args!(" {} ", reader.held.count));
        push_hex(text, &reader.held.bytes);
    }
}

/// Writing to a string cannot fail.
fn push(text: &mut String, arguments: std::fmt::Arguments) {
    let _ = text.write_fmt(arguments);
}

pub fn phase_name(phase: Phase) -> &'static str {
    match phase {
        Phase::Data => "data",
        Phase::Iac => "iac",
        Phase::Verb(Verb::Will) => "will",
        Phase::Verb(Verb::Wont) => "wont",
        Phase::Verb(Verb::Do) => "do",
        Phase::Verb(Verb::Dont) => "dont",
        Phase::Sb => "sb",
        Phase::SbIac => "sb-iac",
        Phase::Sub(_) => "sub",
        Phase::SubIac(_) => "sub-iac",
    }
}

/// The next line of a script without its newline, none at the end.
pub fn next_line(input: &mut impl BufRead, line: &mut Vec<u8>) -> io::Result<bool> {
    line.clear();
    if input.read_until(b'\n', line)? == 0 {
        return Ok(false);
    }
    if line.last() == Some(&b'\n') {
        line.pop();
    }
    Ok(true)
}

/// A whole script: one answer a line, and the end at a bad one.
pub fn script(
    variant: Variant,
    input: &mut impl BufRead,
    output: &mut impl Write,
) -> io::Result<()> {
    let mut replay = Replay::new(variant);
    let (mut bytes, mut text) = (Vec::new(), String::new());
    let mut number = 0;
    while next_line(input, &mut bytes)? {
        number += 1;
        text.clear();
        let Some(line) = Line::parse(&bytes) else {
            writeln!(output, "bad line {number}")?;
            break;
        };
        replay.answer(&line, &mut Unwatched, &mut text);
        text.push('\n');
        output.write_all(text.as_bytes())?;
    }
    output.flush()
}
