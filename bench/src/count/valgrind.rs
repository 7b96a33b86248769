//! Runs a program under callgrind and reads what it dumped.

use std::fs;
use std::path::Path;
use std::process::{Command, Output};

use super::counts::Counts;

const DUMPS: &str = "bench/target/callgrind";

/// Instructions are collected in these and in what they call, and nowhere
/// else. None of them calls another.
const MEASURED: [&str; 9] = [
    "det_host",
    "det_key",
    "telnet_tally",
    "*rust_core_host*",
    "peer_telnet_read",
    "peer_vterm_take",
    "peer_tsm_take",
    "floor_memchr",
    "floor_memcpy",
];

/// The C library copies and fills long stretches by one repeated instruction,
/// which callgrind counts once for each byte. Never, here.
const NOT_REPEATED: &str = "glibc.cpu.x86_rep_movsb_threshold=0x7fffffffffffffff:\
                            glibc.cpu.x86_rep_stosb_threshold=0x7fffffffffffffff";

pub fn installed() -> bool {
    let asked = Command::new("valgrind").arg("--version").output();
    asked.is_ok_and(|output| output.status.success())
}

/// What the program counts when it is run with this word.
pub fn count(program: &Path, word: &str) -> Result<Counts, String> {
    let failed = |error| format!("{DUMPS}: {error}");
    if Path::new(DUMPS).exists() {
        fs::remove_dir_all(DUMPS).map_err(failed)?;
    }
    fs::create_dir_all(DUMPS).map_err(failed)?;
    let output = command(program, word).output();
    let output = output.map_err(|error| format!("valgrind: {error}"))?;
    if !output.status.success() {
        let said = String::from_utf8_lossy(&output.stderr);
        return Err(format!(
            "{} under valgrind failed: {said}",
            program.display()
        ));
    }
    let counts = counts(&output)?;
    fs::remove_dir_all(DUMPS).map_err(failed)?;
    Ok(counts)
}

fn command(program: &Path, word: &str) -> Command {
    let mut valgrind = Command::new("valgrind");
    valgrind.env("GLIBC_TUNABLES", NOT_REPEATED);
    valgrind.args(["--quiet", "--tool=callgrind"]);
    valgrind.arg(format!("--callgrind-out-file={DUMPS}/count"));
    valgrind.args(MEASURED.map(|name| format!("--toggle-collect={name}")));
    valgrind.arg("--zero-before=count_from_here");
    valgrind.arg("--dump-before=count_to_here");
    valgrind.arg(program).arg(word);
    valgrind
}

/// The program has a line for each dump: its name and its units.
fn counts(output: &Output) -> Result<Counts, String> {
    let mut counts = Counts::default();
    let lines = String::from_utf8_lossy(&output.stdout);
    for (index, line) in lines.lines().enumerate() {
        let parts = line.split_once('\t');
        let parts = parts.and_then(|(name, units)| Some((name, units.parse().ok()?)));
        let (name, units) = parts.ok_or(format!("not a count: {line}"))?;
        counts.insert(name, dumped(index + 1)?, units);
    }
    Ok(counts)
}

/// Dumps are numbered from 1.
fn dumped(number: usize) -> Result<u64, String> {
    let file = format!("{DUMPS}/count.{number}");
    let dump = fs::read_to_string(&file).map_err(|error| format!("{file}: {error}"))?;
    let summary = dump.lines().find_map(|line| line.strip_prefix("summary: "));
    let count = summary.and_then(|count| count.trim().parse().ok());
    count.ok_or(format!("{file}: no summary"))
}
