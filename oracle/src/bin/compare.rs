//! The command line of the comparison.

use std::io::{self, Write};
use std::process::ExitCode;

use oracle::compare::arguments::{self, Scripts, Task, HELP};
use oracle::compare::{run, variants};

fn main() -> ExitCode {
    let arguments: Vec<String> = std::env::args_os()
        .skip(1)
        .map(|argument| argument.to_string_lossy().into_owned())
        .collect();
    let arguments: Vec<&str> = arguments.iter().map(String::as_str).collect();
    let task = match arguments::parse(&arguments) {
        Ok(task) => task,
        Err(message) => return fail(2, &format!("{message}; `compare --help` says more")),
    };
    if scripts(&task).is_some_and(Scripts::none) {
        return fail(1, "no seeds or no calls: nothing was compared");
    }
    match perform(task) {
        Ok(true) => ExitCode::SUCCESS,
        Ok(false) => ExitCode::from(1),
        Err(error) => fail(2, &error.to_string()),
    }
}

fn fail(status: u8, message: &str) -> ExitCode {
    eprintln!("compare: {message}");
    ExitCode::from(status)
}

fn scripts(task: &Task) -> Option<&Scripts> {
    match task {
        Task::Help => None,
        Task::Program(_, scripts) | Task::Variants(scripts) => Some(scripts),
    }
}

fn perform(task: Task) -> io::Result<bool> {
    let mut output = io::stdout().lock();
    match task {
        Task::Help => output.write_all(HELP.as_bytes()).map(|()| true),
        Task::Program(program, scripts) => run::run(&program, &scripts, &mut output),
        Task::Variants(scripts) => variants::run(&scripts, &mut output),
    }
}
