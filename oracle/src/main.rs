//! The command line.

use std::io::{self, BufWriter, ErrorKind, Write};
use std::process::ExitCode;

use oracle::variant::{self, Variant};
use oracle::{cover, generate, replay};

const HELP: &str = "\
oracle                  answers a replay script from standard input, a line for a line
oracle --variant NAME   the same with one rule made wrong
oracle variants         lists the wrong variants, a name and what it does on each line
oracle gen SEED CALLS   prints a random script of about CALLS calls, the same for a SEED
oracle cover            counts what a script from standard input exercises; status 1
                        and a line `missing: ...` if a count is zero
oracle --help, -h       prints this
";

enum Task {
    Replay(Variant),
    Variants,
    Generate(u64, usize),
    Cover,
    Help,
}

fn main() -> ExitCode {
    let arguments: Vec<String> = std::env::args_os()
        .skip(1)
        .map(|argument| argument.to_string_lossy().into_owned())
        .collect();
    let arguments: Vec<&str> = arguments.iter().map(String::as_str).collect();
    let done = match task(&arguments) {
        Ok(task) => run(task),
        Err(message) => {
            eprintln!("oracle: {message}; `oracle --help` says more");
            return ExitCode::from(2);
        }
    };
    match done {
        Ok(status) => status,
        // Whoever read the output has seen enough.
        Err(error) if error.kind() == ErrorKind::BrokenPipe => ExitCode::SUCCESS,
        Err(error) => {
            eprintln!("oracle: {error}");
            ExitCode::from(2)
        }
    }
}

fn task(arguments: &[&str]) -> Result<Task, String> {
    match arguments {
        [] => Ok(Task::Replay(Variant::None)),
        ["--variant", name] => match variant::named(name) {
            Some(variant) => Ok(Task::Replay(variant)),
            None => Err(format!("no variant `{name}`")),
        },
        ["--variant"] => Err("--variant takes a name".into()),
        ["variants"] => Ok(Task::Variants),
        ["gen", seed, calls] => Ok(Task::Generate(number(seed)?, number(calls)? as usize)),
        ["gen", ..] => Err("gen takes a seed and a number of calls".into()),
        ["cover"] => Ok(Task::Cover),
        ["--help" | "-h"] => Ok(Task::Help),
        [first, ..] => Err(format!("cannot make sense of `{first}` here")),
    }
}

fn number(text: &str) -> Result<u64, String> {
    text.parse()
        .map_err(|_| format!("`{text}` is not a number"))
}

fn run(task: Task) -> io::Result<ExitCode> {
    match task {
        Task::Replay(variant) => {
            // Unbuffered but for lines, so that a script may wait for answers.
            let mut output = io::stdout().lock();
            replay::script(variant, &mut io::stdin().lock(), &mut output)?;
        }
        Task::Variants => print_variants()?,
        Task::Generate(seed, calls) => print_script(seed, calls)?,
        Task::Cover => return print_cover(),
        Task::Help => io::stdout().write_all(HELP.as_bytes())?,
    }
    Ok(ExitCode::SUCCESS)
}

fn print_variants() -> io::Result<()> {
    let mut output = BufWriter::new(io::stdout().lock());
    for (_, name, what) in variant::ALL {
        writeln!(output, "{name}\t{what}")?;
    }
    output.flush()
}

fn print_script(seed: u64, calls: usize) -> io::Result<()> {
    let mut output = BufWriter::new(io::stdout().lock());
    for line in generate::script(seed, calls) {
        writeln!(output, "{line}")?;
    }
    output.flush()
}

fn print_cover() -> io::Result<ExitCode> {
    let cover = match cover::script(&mut io::stdin().lock())? {
        Ok(cover) => cover,
        Err(cover::BadLine(number)) => {
            eprintln!("oracle: bad line {number}");
            return Ok(ExitCode::from(2));
        }
    };
    write!(io::stdout().lock(), "{cover}")?;
    Ok(match cover.missing().is_empty() {
        true => ExitCode::SUCCESS,
        false => ExitCode::from(1),
    })
}
