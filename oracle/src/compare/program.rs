//! The other program: run on a script, its answers compared one by one, so
//! that neither side's are ever kept.

use std::io::{self, BufRead, BufReader, BufWriter, Read, Write};
use std::process::{Child, ChildStdin, ChildStdout, Command, Stdio};
use std::thread;

use super::difference::Difference;
use crate::replay::Replay;
use crate::script::Line;
use crate::variant::Variant;
use crate::watch::Unwatched;

/// More than any right answer has; a program that never ends its line is not
/// read for ever.
const MOST_ANSWER: u64 = 1 << 20;

/// A program's name and its arguments.
#[derive(Clone, Debug, PartialEq, Eq)]
pub struct Program {
    name: String,
    arguments: Vec<String>,
}

/// What the answers came to.
enum Reading {
    Agree,
    Differ(Difference),
    /// No answer to that line, which has a right one.
    TooFew(usize, String),
}

impl Program {
    /// None where the command line is empty.
    pub fn new(command: &str) -> Option<Program> {
        let mut words = command.split_whitespace().map(String::from);
        Some(Program {
            name: words.next()?,
            arguments: words.collect(),
        })
    }

    /// Runs the script to the first difference. An error is one of running
    /// the program at all.
    pub fn difference(&self, script: &[Line], stderr: Stdio) -> io::Result<Option<Difference>> {
        self.run(script, stderr).map_err(|error| {
            let message = format!("cannot run `{}`: {error}", self.name);
            io::Error::new(error.kind(), message)
        })
    }

    fn run(&self, script: &[Line], stderr: Stdio) -> io::Result<Option<Difference>> {
        let mut child = Command::new(&self.name)
            .args(&self.arguments)
            .stdin(Stdio::piped())
            .stdout(Stdio::piped())
            .stderr(stderr)
            .spawn()?;
        let (Some(input), Some(output)) = (child.stdin.take(), child.stdout.take()) else {
            return Err(io::Error::other("it has no pipes"));
        };
        // Written and read at the same time, since either pipe may be full.
        thread::scope(|scope| {
            scope.spawn(|| feed(input, script));
            let reading = read(output, script);
            finish(child, reading, script.len() + 1)
        })
    }
}

/// A program may end before it has read everything: its answers tell.
fn feed(input: ChildStdin, script: &[Line]) {
    let mut input = BufWriter::new(input);
    for line in script {
        if writeln!(input, "{line}").is_err() {
            return;
        }
    }
    let _ = input.flush();
}

fn read(output: ChildStdout, script: &[Line]) -> io::Result<Reading> {
    let mut output = BufReader::new(output);
    let mut replay = Replay::new(Variant::None);
    let (mut right, mut other) = (String::new(), Vec::new());
    for (index, line) in script.iter().enumerate() {
        right.clear();
        replay.answer(line, &mut Unwatched, &mut right);
        if !next_answer(&mut output, &mut other)? {
            return Ok(Reading::TooFew(index + 1, right));
        }
        if other.strip_suffix(b"\n") != Some(right.as_bytes()) {
            let other = shown(&other);
            return Ok(differ(index + 1, right, other));
        }
    }
    match next_answer(&mut output, &mut other)? {
        false => Ok(Reading::Agree),
        true => {
            let other = format!("too many lines: {}", shown(&other));
            Ok(differ(script.len() + 1, "no further line".into(), other))
        }
    }
}

fn differ(line: usize, right: String, other: String) -> Reading {
    Reading::Differ(Difference { line, right, other })
}

/// False at the end.
fn next_answer(output: &mut impl BufRead, answer: &mut Vec<u8>) -> io::Result<bool> {
    answer.clear();
    let read = output.take(MOST_ANSWER).read_until(b'\n', answer)?;
    Ok(read > 0)
}

fn shown(answer: &[u8]) -> String {
    match answer.strip_suffix(b"\n") {
        Some(answer) => String::from_utf8_lossy(answer).into_owned(),
        None => format!("{} (without a newline)", String::from_utf8_lossy(answer)),
    }
}

/// Sees the program off. One that has written its last line ends by itself
/// and is asked how; any other is stopped, which also frees its feeder.
fn finish(
    mut child: Child,
    reading: io::Result<Reading>,
    end: usize,
) -> io::Result<Option<Difference>> {
    let (line, right, other) = match reading {
        Ok(Reading::Agree) => (end, "ends with status 0".into(), "ends"),
        Ok(Reading::TooFew(line, right)) => (line, right, "too few lines, ended"),
        Ok(Reading::Differ(difference)) => return stop(child).map(|()| Some(difference)),
        Err(error) => return stop(child).and(Err(error)),
    };
    let status = child.wait()?;
    if status.success() && line == end {
        return Ok(None);
    }
    let other = format!("{other} with {status}");
    Ok(Some(Difference { line, right, other }))
}

fn stop(mut child: Child) -> io::Result<()> {
    // It may have ended already.
    let _ = child.kill();
    child.wait().map(drop)
}
