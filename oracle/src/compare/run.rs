//! Another program against the oracle, seed by seed.

use std::io::{self, Write};
use std::process::Stdio;
use std::time::Instant;

use super::arguments::Scripts;
use super::cut::cut;
use super::difference::Difference;
use super::program::Program;
use super::tally::Tally;
use crate::generate;
use crate::script::Line;

/// Whether all answers agree. An error is one of running the program, or of
/// the output.
pub fn run(program: &Program, scripts: &Scripts, output: &mut impl Write) -> io::Result<bool> {
    let start = Instant::now();
    let mut tally = Tally::default();
    let mut seeds = 0;
    for seed in scripts.seeds.iter() {
        let script = generate::script(seed, scripts.calls);
        if let Some(found) = program.difference(&script, Stdio::inherit())? {
            tally.add(&script[..found.line - 1]);
            report(program, seed, script, found, output)?;
            let seconds = start.elapsed().as_secs_f64();
            writeln!(output, "{tally} agreed before that, in {seconds:.1} s")?;
            return Ok(false);
        }
        tally.add(&script);
        seeds += 1;
    }
    let seconds = start.elapsed().as_secs_f64();
    writeln!(
        output,
        "{tally} agreed over {seeds} seeds in {seconds:.1} s"
    )?;
    Ok(true)
}

/// Prints the difference, first by its place, since the cutting takes a while.
fn report(
    program: &Program,
    seed: u64,
    script: Vec<Line>,
    found: Difference,
    output: &mut impl Write,
) -> io::Result<()> {
    let (line, lines) = (found.line, script.len());
    writeln!(output, "seed {seed}: line {line} of {lines} differs")?;
    output.flush()?;
    // Where the program cannot be run any more, nothing more is cut.
    let mut differs = |script: &[Line]| program.difference(script, Stdio::null()).ok().flatten();
    let (script, found) = cut(script, found, &mut differs);
    writeln!(output, "\ncut down to {} of {lines} lines:\n", script.len())?;
    for line in &script {
        writeln!(output, "{line}")?;
    }
    writeln!(output, "\n{found}\n")
}
