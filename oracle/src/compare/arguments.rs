//! What the command line asks for.

use super::program::Program;
use super::seeds::{number, Seeds};

pub const HELP: &str = "\
compare PROGRAM SEEDS CALLS    runs PROGRAM on a random script of about CALLS calls for
                               each seed and compares its answers with the oracle's;
                               a script that shows a difference is cut down and printed
compare variants SEEDS CALLS   tells which of the oracle's wrong variants such scripts catch
compare --help, -h             prints this

PROGRAM  a command line, its words parted by spaces; it reads a script from standard input
SEEDS    50 for 1 to 50, or 5..9 for 5 to 9, or a list as 1,5,9
status   0 all agree, or all variants are caught; 1 if not, or if there was nothing to
         compare; 2 where PROGRAM cannot be run or the arguments make no sense
";

#[derive(Clone, Debug, PartialEq, Eq)]
pub enum Task {
    Help,
    Program(Program, Scripts),
    Variants(Scripts),
}

/// The scripts that a task takes: one for each seed.
#[derive(Clone, Debug, PartialEq, Eq)]
pub struct Scripts {
    pub seeds: Seeds,
    pub calls: usize,
}

impl Scripts {
    fn parse(seeds: &str, calls: &str) -> Result<Scripts, String> {
        let calls = number(calls)?;
        Ok(Scripts {
            seeds: Seeds::parse(seeds)?,
            calls: usize::try_from(calls).map_err(|_| format!("`{calls}` is too many"))?,
        })
    }

    /// Whether a comparison of these would say nothing.
    pub fn none(&self) -> bool {
        self.calls == 0 || self.seeds.is_empty()
    }
}

pub fn parse(arguments: &[&str]) -> Result<Task, String> {
    match arguments {
        ["--help" | "-h"] => Ok(Task::Help),
        ["variants", seeds, calls] => Ok(Task::Variants(Scripts::parse(seeds, calls)?)),
        [command, seeds, calls] => {
            let program = Program::new(command).ok_or("PROGRAM is empty")?;
            Ok(Task::Program(program, Scripts::parse(seeds, calls)?))
        }
        ["variants", ..] => Err("variants takes SEEDS and CALLS".into()),
        _ => Err("takes PROGRAM, SEEDS and CALLS".into()),
    }
}
