//! The program as it is started from a shell.

use std::io::Write;
use std::process::{Command, Output, Stdio};

fn oracle(arguments: &[&str], input: &str) -> Output {
    let mut child = Command::new(env!("CARGO_BIN_EXE_oracle"))
        .args(arguments)
        .stdin(Stdio::piped())
        .stdout(Stdio::piped())
        .stderr(Stdio::piped())
        .spawn()
        .expect("the program starts");
    let mut stdin = child.stdin.take().expect("a pipe");
    // A program that reads nothing may be gone already.
    let _ = stdin.write_all(input.as_bytes());
    drop(stdin);
    child.wait_with_output().expect("the program ends")
}

fn stdout(output: &Output) -> String {
    String::from_utf8_lossy(&output.stdout).into_owned()
}

/// Option 30 as open leaves it, and nothing agreed.
const START: &str = " 0 - 00000000000000000000000000000000000000000000000000131100 0000000000";

#[test]
fn answers_a_script() {
    let output = oracle(&[], "open 1 1 1 1 1 732\nkey 65 9\nstat\nstate\n");
    let open = "0 0 0 - 1 1 0 0 0 0 20 00";
    let key = "0 1 0 a5a5a5a5a5a5a5a5a5 1 1 0 0 0 0 41 00";
    let expected = format!("{open}{START} 00 732\n{key}{START} 01 732\nbad line 3\n");
    assert_eq!(stdout(&output), expected);
    assert_eq!(output.status.code(), Some(0));
}

#[test]
fn runs_a_variant() {
    let script = "open 1 1 1 1 1 732\nhost - 9\n";
    let right = stdout(&oracle(&[], script));
    let wrong = stdout(&oracle(&["--variant", "refuse-room-more"], script));
    let rest = format!(" 0 0 a5a5a5a5a5a5a5a5a5 1 1 0 0 0 0 20 00{START} 00 732\n");
    assert!(right.ends_with(&format!("\n0{rest}")));
    assert!(wrong.ends_with(&format!("\n5{rest}")));
}

#[test]
fn lists_variants_with_distinct_names() {
    let listed = stdout(&oracle(&["variants"], ""));
    let mut names: Vec<&str> = listed
        .lines()
        .map(|line| line.split_once('\t').expect("a tab").0)
        .collect();
    let count = names.len();
    assert!(count >= 36);
    names.sort_unstable();
    names.dedup();
    assert_eq!(names.len(), count);
}

#[test]
fn generates_and_covers() {
    let script = oracle(&["gen", "1", "300"], "");
    assert_eq!(script.status.code(), Some(0));
    let cover = oracle(&["cover"], &stdout(&script));
    assert_eq!(cover.status.code(), Some(1));
    let table = stdout(&cover);
    assert!(table
        .lines()
        .last()
        .is_some_and(|line| line.starts_with("missing: ")));
    assert_eq!(oracle(&["cover"], "stat\n").status.code(), Some(2));
}

#[test]
fn helps() {
    for flag in ["--help", "-h"] {
        let output = oracle(&[flag], "");
        assert_eq!(output.status.code(), Some(0));
        assert!(stdout(&output).contains("oracle gen SEED CALLS"));
    }
}

#[test]
fn bad_arguments_are_told() {
    let bad: [&[&str]; 9] = [
        &["play"],
        &["--variant"],
        &["--variant", "no-such"],
        &["gen"],
        &["gen", "1"],
        &["gen", "1", "x"],
        &["gen", "1", "2", "3"],
        &["cover", "1"],
        &["variants", "all"],
    ];
    for arguments in bad {
        let output = oracle(arguments, "");
        assert_eq!(output.status.code(), Some(2), "{arguments:?}");
        assert!(output.stdout.is_empty());
        assert!(output.stderr.starts_with(b"oracle: "));
    }
}
