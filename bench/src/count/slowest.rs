//! (i) The slowest command and key on three large screens.

use super::commands::commands;
use super::counts::{shown, Both, Counts};
use super::each_command;
use super::keys;
use super::printable;
use super::screens::{ALL_PROTECTED, BLANK, EACH_A_FIELD};
use super::slow::{slowest_of, Slow};
use crate::keys::KEYS;
use crate::screens::Screen;
use crate::size::LARGE;
use crate::table::{Row, Table, Verdict};

pub fn table(counts: &Both) -> Table {
    let mut rows = both(counts, "", empty);
    for screen in [BLANK, ALL_PROTECTED, EACH_A_FIELD] {
        rows.extend(both(counts, "command", |counts| command(counts, &screen)));
        rows.extend(both(counts, "key", |counts| key(counts, &screen)));
    }
    let head = [
        "screen",
        "slowest",
        "which",
        "when",
        "instructions",
        "a cell",
    ];
    Table::new("(i) The slowest command and key, 132 by 64", &head, rows)
}

/// A row for the base and one for this build.
fn both(counts: &Both, of: &str, slow: impl Fn(&Counts) -> Option<Slow>) -> Vec<Row> {
    let before = slow(&counts.base).map(|slow| row("before", of, slow));
    let now = slow(&counts.now).map(|slow| row("now", of, slow));
    before.into_iter().chain(now).collect()
}

/// To see the others beside.
fn empty(counts: &Counts) -> Option<Slow> {
    Some(Slow {
        what: "a call without bytes",
        screen: "any",
        count: printable::empty_call(counts, LARGE)?,
    })
}

fn command(counts: &Counts, screen: &Screen) -> Option<Slow> {
    let on_it = |command| each_command::on(counts, &command, screen);
    slowest_of(commands().filter_map(on_it))
}

fn key(counts: &Counts, screen: &Screen) -> Option<Slow> {
    let on_it = |(_, key)| keys::on(counts, key, LARGE, screen);
    slowest_of(KEYS.into_iter().filter_map(on_it))
}

fn row(when: &str, of: &str, slow: Slow) -> Row {
    let (count, a_cell) = (shown(Some(slow.count)), shown(Some(slow.a_cell())));
    let cells = [slow.screen, of, slow.what, when, &count, &a_cell];
    Row {
        cells: cells.map(String::from).into(),
        verdict: Verdict::NoAim,
    }
}
