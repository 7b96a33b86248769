//! (b) Host bytes on a screen: beside libvterm and libtsm, beside the oracle's
//! core in Rust, and on a larger screen.

use std::path::Path;

use crate::beside_core::{self, Beside, FORMS, TEXT};
use crate::compared::{self, not_measured, short, Compared};
use crate::ours::Ours;
use crate::size::{LARGE, SMALL};
use crate::streams;
use crate::table::{Aim, Row, Table};
use crate::takes::{Shown, Shows, LIBTSM, LIBVTERM};
use crate::timing::{beside, Job};

const INPUT: usize = 64 << 10;

/// As many bytes of text.
const TWENTY_LINES: usize = 1200;

/// For calls so long that the pass over the characters, which each call makes
/// before it takes a byte, is below a hundredth of them.
const LONG: usize = 1 << 20;

/// The Rust core is in this program as it is built plainly, and in the other
/// one as it is built for speed.
pub fn table(speed: &Path) -> Result<Table, String> {
    let (ten, one) = (Some(Aim::AtLeast(10.0)), Some(Aim::AtLeast(1.0)));
    let plain = |input| beside_core::here(input);
    let fast = |input| beside_core::by(speed, input);
    let rows = vec![
        text_row(LIBVTERM, "text", b"\r\n", ten)?,
        text_row(LIBVTERM, "text without line feeds", b"\r", None)?,
        text_row(LIBTSM, "text", b"\r\n", None)?,
        text_row(LIBTSM, "text without line feeds", b"\r", None)?,
        core_row(FORMS, "Rust core, plain", plain(FORMS)?, one),
        core_row(TEXT, "Rust core, plain", plain(TEXT)?, None),
        core_row(FORMS, "Rust core, for speed", fast(FORMS)?, None),
        core_row(TEXT, "Rust core, for speed", fast(TEXT)?, None),
        larger_row(),
        empty_row(),
    ];
    Ok(compared::table("(b) Host bytes", rows))
}

fn ns_per_byte(name: &str, cost: f64) -> String {
    format!("{name} {} ns/byte", short(cost)).trim().into()
}

fn text_row(shown: Shown, what: &str, line_end: &[u8], aim: Option<Aim>) -> Result<Row, String> {
    let what = format!("host bytes, {what}, {SMALL}");
    let Some(mut peer) = (shown.open)(SMALL) else {
        return Ok(not_measured(&what, shown.package, aim));
    };
    let mut ours = Ours::open(SMALL);
    let differ = |differ| format!("{what}, {}: {differ}", shown.name);
    agree(line_end, &mut ours, peer.as_mut()).map_err(differ)?;
    let input = streams::text(INPUT, line_end);
    let costs = beside(&mut [
        Job::new(input.len(), || ours.take(&input)),
        Job::new(input.len(), || peer.take(&input)),
    ]);
    let row = Compared {
        what,
        ours: ns_per_byte("", costs.of(0)),
        beside: ns_per_byte(shown.name, costs.of(1)),
        unit: "times as fast",
    };
    Ok(row.row(costs.ratio(1, 0), aim))
}

/// Both are to show the same characters, as long as nothing scrolls.
fn agree(line_end: &[u8], ours: &mut Ours, peer: &mut dyn Shows) -> Result<(), String> {
    let text = streams::text(TWENTY_LINES, line_end);
    ours.take(&text);
    peer.take(&text);
    for (cell, ours) in ours.chars.iter().enumerate() {
        let (line, column) = (cell / SMALL.columns, cell % SMALL.columns);
        // A cell without a character is a space here.
        let theirs = peer.cell(line, column).max(b' ');
        if theirs != *ours {
            let place = format!("column {column} of line {line}");
            return Err(format!("we show {ours} and it {theirs} at {place}"));
        }
    }
    Ok(())
}

fn core_row(input: &str, core: &str, costs: Beside, aim: Option<Aim>) -> Row {
    let row = Compared {
        what: format!("host bytes, {input}, {SMALL}"),
        ours: ns_per_byte("", costs.ours),
        beside: ns_per_byte(core, costs.core),
        unit: "times as fast",
    };
    row.row(costs.ratio, aim)
}

/// A byte of text on the larger screen beside one on the smaller.
fn larger_row() -> Row {
    let text = streams::text(LONG, b"\r\n");
    let (mut large, mut small) = (Ours::open(LARGE), Ours::open(SMALL));
    let costs = beside(&mut [
        Job::new(text.len(), || large.take(&text)),
        Job::new(text.len(), || small.take(&text)),
    ]);
    let row = Compared {
        what: format!("host bytes, text in long calls, {LARGE}"),
        ours: ns_per_byte("", costs.of(0)),
        beside: ns_per_byte(&format!("{SMALL}:"), costs.of(1)),
        unit: "times the cost",
    };
    row.row(costs.ratio(0, 1), Some(Aim::AtMost(1.1)))
}

/// What a call costs before its first byte.
fn empty_row() -> Row {
    let (mut large, mut small) = (Ours::open(LARGE), Ours::open(SMALL));
    let costs = beside(&mut [
        Job::new(1, || large.take(&[])),
        Job::new(1, || small.take(&[])),
    ]);
    let row = Compared {
        what: format!("a call without bytes, {LARGE}"),
        ours: format!("{} ns", short(costs.of(0))),
        beside: format!("{SMALL}: {} ns", short(costs.of(1))),
        unit: "times the cost",
    };
    row.row(costs.ratio(0, 1), None)
}
