//! (h) One key.

use super::calls::counted;
use super::counts::{shown, Both, Counts};
use super::screens::{at, cursors, ALL_PROTECTED, BLANK, EACH_A_FIELD, FORM, SCREENS};
use super::slow::{slowest_of, Slow};
use crate::keys::{KEYS, LINE_KEYS};
use crate::screens::Screen;
use crate::size::{Size, LARGE, SMALL};
use crate::table::{Row, Table, Verdict};

pub fn run() {
    for size in [SMALL, LARGE] {
        for screen in &SCREENS {
            for (key, key_name) in KEYS {
                press(key, key_name, size, screen);
            }
        }
        for (key, key_name, line) in &LINE_KEYS {
            press(*key, key_name, size, line);
        }
    }
}

fn press(key: u32, key_name: &str, size: Size, screen: &Screen) {
    for cell in cursors(size) {
        let mut ours = at(screen, size, cell);
        // A refusal is counted too: it is what the key costs there.
        let press = || _ = ours.key(key);
        counted(&name(key_name, size, screen), 1, press);
    }
}

fn name(key: &str, size: Size, screen: &Screen) -> String {
    format!("key {key}, {size}, {}", screen.name)
}

/// On one screen.
pub fn on(counts: &Counts, key: &'static str, size: Size, screen: &Screen) -> Option<Slow> {
    Some(Slow {
        what: key,
        screen: screen.name,
        count: counts.of(&name(key, size, screen))?,
    })
}

/// On any screen.
pub fn slowest(counts: &Counts, key: &'static str, size: Size) -> Option<Slow> {
    slowest_of(
        SCREENS
            .iter()
            .filter_map(|screen| on(counts, key, size, screen)),
    )
}

pub fn table(counts: &Both) -> Table {
    let mut rows = Vec::new();
    for (_, key) in KEYS {
        for screen in [FORM, BLANK, ALL_PROTECTED, EACH_A_FIELD] {
            let on_it = |counts: &Counts, size| on(counts, key, size, &screen);
            rows.push(row(counts, key, screen.name.into(), on_it));
        }
        let name = slowest(&counts.now, key, SMALL).map_or("", |slow| slow.screen);
        let on_any = |counts: &Counts, size| slowest(counts, key, size);
        rows.push(row(
            counts,
            key,
            format!("the slowest of ten: {name}"),
            on_any,
        ));
    }
    for (_, key, line) in &LINE_KEYS {
        let in_it = |counts: &Counts, size| on(counts, key, size, line);
        rows.push(row(counts, key, line.name.into(), in_it));
    }
    let (small, large) = (SMALL.to_string(), LARGE.to_string());
    let (small_before, large_before) = (format!("{small}, before"), format!("{large}, before"));
    let head = [
        "key",
        "screen",
        &small_before,
        &small,
        &large_before,
        &large,
    ];
    Table::new("(h) One key, instructions", &head, rows)
}

fn row(
    counts: &Both,
    key: &str,
    screen: String,
    slow: impl Fn(&Counts, Size) -> Option<Slow>,
) -> Row {
    let mut cells = vec![key.into(), screen];
    for size in [SMALL, LARGE] {
        for counts in [&counts.base, &counts.now] {
            cells.push(shown(slow(counts, size).map(|slow| slow.count)));
        }
    }
    Row {
        cells,
        verdict: Verdict::NoAim,
    }
}
