//! (d) Memory: the session, and the stack that a call uses.

use host::terminal::SESSION_LENGTH;

use crate::c::stack::{used, Call};
use crate::keys::{KEYS, LINE_KEYS};
use crate::ours::Ours;
use crate::screens::{EMPTY_LINE, FORM, HARD};
use crate::size::{Size, LARGE, SMALL};
use crate::streams;
use crate::table::{Row, Table, Verdict};

pub fn table() -> Table {
    let rows = vec![
        row("a session", |_| SESSION_LENGTH),
        row("stack of det_open", open),
        row("stack of det_host, forms", host_forms),
        row("stack of det_host, every command", host_commands),
        row("stack of det_host, option 30's messages", host_messages),
        row("stack of det_key, every key and screen of (c)", key),
        row("stack of det_key, into the edit line", line_key),
    ];
    let (small, large) = (SMALL.to_string(), LARGE.to_string());
    Table::new("(d) Memory, in bytes", &["what", &small, &large], rows)
}

fn row(what: &str, bytes: fn(Size) -> usize) -> Row {
    let cells = [
        what.into(),
        bytes(SMALL).to_string(),
        bytes(LARGE).to_string(),
    ];
    Row {
        cells: cells.into(),
        verdict: Verdict::NoAim,
    }
}

/// The most that any of these calls uses.
fn most(calls: impl Iterator<Item = Option<usize>>) -> usize {
    calls.flatten().max().expect("one of the calls is taken")
}

fn open(size: Size) -> usize {
    most([used(Call::Open, &Ours::open(size))].into_iter())
}

fn host_forms(size: Size) -> usize {
    let forms = streams::forms(64 << 10);
    most([used(Call::Host(&forms), &Ours::open(size))].into_iter())
}

fn host_commands(size: Size) -> usize {
    host_each(streams::commands(), (FORM.make)(size))
}

fn host_messages(size: Size) -> usize {
    host_each(streams::messages(), (EMPTY_LINE.make)(size))
}

fn host_each(inputs: Vec<Vec<u8>>, screen: Ours) -> usize {
    let calls = inputs.iter().map(|bytes| Call::Host(bytes));
    most(calls.map(|call| used(call, &screen)))
}

fn key(size: Size) -> usize {
    let screens = [&FORM].into_iter().chain(&HARD);
    let screens = screens.map(|screen| (screen.make)(size));
    most(screens.flat_map(|screen| KEYS.map(|(key, _)| used(Call::Key(key), &screen))))
}

fn line_key(size: Size) -> usize {
    let calls = LINE_KEYS.iter();
    most(calls.map(|(key, _, line)| used(Call::Key(*key), &(line.make)(size))))
}
