//! (e) to (j): instructions. This program runs itself under callgrind, there
//! does one measured thing after the other, and reads what each took.

mod aims;
mod built;
mod calls;
mod commands;
mod counts;
mod each_command;
mod host_bytes;
mod inputs;
mod keys;
mod printable;
mod reader;
mod screens;
mod sides;
mod slow;
mod slowest;
mod valgrind;

use std::path::Path;

use crate::table::Table;
use counts::Both;

/// What to do under callgrind: all of it, or the Rust core's rows alone, in
/// the build that was made for speed.
pub fn under_callgrind(all: bool) {
    if !all {
        return host_bytes::run(&[sides::CORE_FOR_SPEED]);
    }
    host_bytes::run(&sides::ALL);
    reader::run();
    printable::run();
    keys::run();
    each_command::run();
}

/// An error where a program under callgrind fails.
pub fn tables(plain: &Path, speed: &Path) -> Result<Vec<Table>, String> {
    if !valgrind::installed() {
        let why = "Instructions are not counted: install the package valgrind.";
        let without = Table::only_notes("(e) to (j) Instructions", vec![why.into()]);
        return Ok(vec![without, built::table()]);
    }
    let mut now = valgrind::count(plain, "--count-all")?;
    now.add(valgrind::count(speed, "--count-core")?);
    now.keep()?;
    let counts = Both::beside_base(now);
    Ok(vec![
        aims::table(&counts),
        host_bytes::table(&counts),
        reader::table(&counts),
        keys::table(&counts),
        slowest::table(&counts),
        each_command::table(&counts),
        built::table(),
    ])
}
