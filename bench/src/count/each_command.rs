//! (j) Each command of a few bytes, on the screen on which it is slowest.

use super::calls::counted;
use super::commands::{commands, Command};
use super::counts::{shown, Both, Counts};
use super::screens::{at, cursors, SCREENS};
use super::slow::{slowest_of, Slow};
use crate::screens::Screen;
use crate::size::LARGE;
use crate::table::{Row, Table, Verdict};

pub fn run() {
    for screen in &SCREENS {
        for command in commands() {
            for cell in cursors(LARGE) {
                let mut ours = at(screen, LARGE, cell);
                let bytes = (command.bytes)(LARGE, cell);
                counted(&name(&command, screen), 1, || ours.take(&bytes));
            }
        }
    }
}

fn name(command: &Command, screen: &Screen) -> String {
    format!("command {}, {LARGE}, {}", command.name, screen.name)
}

/// On one screen.
pub fn on(counts: &Counts, command: &Command, screen: &Screen) -> Option<Slow> {
    Some(Slow {
        what: command.name,
        screen: screen.name,
        count: counts.of(&name(command, screen))?,
    })
}

fn on_any(counts: &Counts, command: &Command) -> Option<Slow> {
    slowest_of(
        SCREENS
            .iter()
            .filter_map(|screen| on(counts, command, screen)),
    )
}

/// Of some of the commands.
pub fn slowest(counts: &Counts, some: fn(&Command) -> bool) -> Option<Slow> {
    let some = commands().filter(some);
    slowest_of(some.filter_map(|command| on_any(counts, &command)))
}

pub fn table(counts: &Both) -> Table {
    let slow = |command| {
        Some((
            on_any(&counts.now, &command)?,
            on_any(&counts.base, &command),
        ))
    };
    let mut slow: Vec<_> = commands().filter_map(slow).collect();
    slow.sort_by(|(a, _), (b, _)| b.count.total_cmp(&a.count));
    let rows = slow
        .into_iter()
        .map(|(now, before)| row(counts, before, now));
    let head = [
        "command",
        "its slowest screen",
        "before",
        "now",
        "a cell, before",
        "a cell, now",
        "of which its own, before",
        "of which its own, now",
    ];
    let title = "(j) Each command, 132 by 64, instructions of one call";
    Table::new(title, &head, rows.collect())
}

fn row(counts: &Both, before: Option<Slow>, now: Slow) -> Row {
    let own_before = before.map(|before| before.own_a_cell(&counts.base));
    let numbers = [
        before.map(|before| before.count),
        Some(now.count),
        before.map(Slow::a_cell),
        Some(now.a_cell()),
        own_before,
        Some(now.own_a_cell(&counts.now)),
    ];
    let names = [now.what.to_string(), now.screen.to_string()];
    Row {
        cells: names.into_iter().chain(numbers.map(shown)).collect(),
        verdict: Verdict::NoAim,
    }
}
