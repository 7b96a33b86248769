//! Measures the terminal beside its peers and prints the tables.

mod beside_core;
mod c;
mod compared;
mod count;
mod host_bytes;
mod keys;
mod machine;
mod memory;
mod ours;
mod reader;
mod report;
mod rust_core;
mod screens;
mod size;
mod streams;
mod table;
mod takes;
mod timing;

use std::env;
use std::ffi::OsString;
use std::fs;
use std::path::{Path, PathBuf};
use std::process::ExitCode;

use table::{Table, Verdict};

const MISSED: u8 = 1;
const NOT_RUN: u8 = 2;

fn main() -> ExitCode {
    let arguments: Vec<OsString> = env::args_os().skip(1).collect();
    let words: Vec<&str> = arguments.iter().filter_map(|word| word.to_str()).collect();
    match words[..] {
        ["--count-all"] => count::under_callgrind(true),
        ["--count-core"] => count::under_callgrind(false),
        [beside_core::WORD, input] => return told(beside_core::tell(input)),
        [speed] => return measured(Path::new(speed), None),
        [speed, file] => return measured(Path::new(speed), Some(Path::new(file))),
        _ => {
            eprintln!("bench: it is started by bench/run");
            return NOT_RUN.into();
        }
    }
    ExitCode::SUCCESS
}

fn told(outcome: Result<(), String>) -> ExitCode {
    let Err(message) = outcome else {
        return ExitCode::SUCCESS;
    };
    eprintln!("bench: {message}");
    MISSED.into()
}

/// Beside the build that was made for speed; the results go into the file, if
/// one is named.
fn measured(speed: &Path, file: Option<&Path>) -> ExitCode {
    let tables = match measure(speed) {
        Ok(tables) => tables,
        Err(message) => {
            eprintln!("bench: {message}");
            return MISSED.into();
        }
    };
    println!("{}", report::tables(&tables));
    println!("{}", report::summary(&tables));
    if let Some(Err(error)) = file.map(|file| fs::write(file, report::results(&tables))) {
        eprintln!("bench: the results cannot be written: {error}");
        return NOT_RUN.into();
    }
    match tables.iter().any(|table| table.count(Verdict::Missed) > 0) {
        true => MISSED.into(),
        false => ExitCode::SUCCESS,
    }
}

/// An error where two sides do not agree on what the input does.
fn measure(speed: &Path) -> Result<Vec<Table>, String> {
    let mut tables = vec![
        reader::table()?,
        host_bytes::table(speed)?,
        keys::table(),
        memory::table(),
    ];
    let plain = PathBuf::from(env::args_os().next().unwrap_or_default());
    tables.extend(count::tables(&plain, speed)?);
    Ok(tables)
}
