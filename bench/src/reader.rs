//! (a) The Telnet reader beside libtelnet.

use crate::c::libtelnet::{self, Libtelnet};
use crate::c::tally::tally;
use crate::compared::{self, not_measured, short, Compared};
use crate::streams;
use crate::table::{Aim, Row, Table};
use crate::timing::{beside, Job};

const INPUT: usize = 64 << 10;

pub fn table() -> Result<Table, String> {
    let rows = vec![
        row("Telnet reader, forms", &streams::forms(INPUT))?,
        row("Telnet reader, text", &streams::text(INPUT, b"\r\n"))?,
    ];
    Ok(compared::table("(a) The Telnet reader", rows))
}

fn row(what: &str, input: &[u8]) -> Result<Row, String> {
    let aim = Some(Aim::AtLeast(1.0));
    let Some(mut peer) = Libtelnet::new() else {
        return Ok(not_measured(what, libtelnet::PACKAGE, aim));
    };
    agree(what, input, &mut peer)?;
    let costs = beside(&mut [
        Job::new(input.len(), || _ = tally(input)),
        Job::new(input.len(), || peer.read(input)),
    ]);
    let row = Compared {
        what: what.into(),
        ours: format!("{} ns/byte", short(costs.of(0))),
        beside: format!("libtelnet {} ns/byte", short(costs.of(1))),
        unit: "times as fast",
    };
    Ok(row.row(costs.ratio(1, 0), aim))
}

/// Both are to count the same bytes.
fn agree(what: &str, input: &[u8], peer: &mut Libtelnet) -> Result<(), String> {
    peer.read(input);
    let (ours, theirs) = (tally(input), peer.counts());
    if ours != theirs {
        return Err(format!(
            "{what}: we count {ours:?}, libtelnet counts {theirs:?}"
        ));
    }
    Ok(())
}
