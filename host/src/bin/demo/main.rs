//! Shows the terminal at work on a dosing form and in a log-in, step by step.

mod desk;
mod dosing;
mod form;
mod login;
mod teller;
mod telnet;
mod view;

use std::error::Error;
use std::io::{self, ErrorKind};
use std::process::ExitCode;

use teller::{Done, Teller};

const HELP: &str = "\
demo              shows the terminal at work on a dosing form and in a log-in; in a terminal it
                  waits for Enter after each step, underlines what is open and reverses the cursor
demo --help, -h   prints this

status   0 every step came out as it should; 1 one did not; 2 the arguments make no sense
";

fn main() -> ExitCode {
    let arguments: Vec<_> = std::env::args_os().skip(1).collect();
    match arguments.as_slice() {
        [] => {}
        [word] if word == "--help" || word == "-h" => {
            print!("{HELP}");
            return ExitCode::SUCCESS;
        }
        _ => {
            eprintln!("demo: takes no arguments; `demo --help` says more");
            return ExitCode::from(2);
        }
    }
    match tell() {
        Ok(()) => ExitCode::SUCCESS,
        // Whoever read the output has seen enough.
        Err(error) if is_broken_pipe(&*error) => ExitCode::SUCCESS,
        Err(error) => {
            eprintln!("demo: {error}");
            ExitCode::from(1)
        }
    }
}

/// An error where a step does not come out as it should.
fn tell() -> Done {
    let mut teller = Teller::new();
    teller.say("A dosing form\n")?;
    dosing::tell(&mut teller)?;
    teller.say("A log-in on a slow line\n")?;
    login::tell(&mut teller)?;
    teller.say("Every step came out as it should.")
}

fn is_broken_pipe(error: &(dyn Error + 'static)) -> bool {
    let error = error.downcast_ref::<io::Error>();
    error.is_some_and(|error| error.kind() == ErrorKind::BrokenPipe)
}
