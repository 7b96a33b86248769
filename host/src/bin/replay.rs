//! The replay program over the terminal's static library.

use std::io;
use std::process::ExitCode;

use host::replay::{self, Failure};

const HELP: &str = "\
replay              answers a replay script from standard input, a line for a line
replay --help, -h   prints this
";

fn main() -> ExitCode {
    let arguments: Vec<_> = std::env::args_os().skip(1).collect();
    match arguments.as_slice() {
        [] => {}
        [word] if word == "--help" || word == "-h" => {
            print!("{HELP}");
            return ExitCode::SUCCESS;
        }
        _ => {
            eprintln!("replay: takes no arguments; `replay --help` says more");
            return ExitCode::from(2);
        }
    }
    match replay::run(&mut io::stdin().lock(), &mut io::stdout().lock()) {
        Ok(()) => return ExitCode::SUCCESS,
        Err(Failure::Input(error)) => eprintln!("replay: standard input cannot be read: {error}"),
        Err(Failure::Output(error)) => {
            eprintln!("replay: standard output cannot be written: {error}")
        }
    }
    ExitCode::from(1)
}
