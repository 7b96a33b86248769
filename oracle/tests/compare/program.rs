//! The program as it is started from a shell.

use std::path::Path;
use std::process::{Command, Output};

const ORACLE: &str = env!("CARGO_BIN_EXE_oracle");
const FOLDER: &str = env!("CARGO_TARGET_TMPDIR");

/// Runs beside the oracle, whose own path may have spaces in it.
fn compare(arguments: &[&str]) -> Output {
    let folder = Path::new(ORACLE).parent().expect("a folder");
    run(arguments, folder)
}

/// Compares with a shell script; it finds the oracle's path in `$ORACLE`.
fn compare_shell(name: &str, script: &str) -> Output {
    let folder = Path::new(FOLDER);
    std::fs::write(folder.join(name), script).expect("a file is written");
    run(&[&format!("sh {name}"), "1..2", "300"], folder)
}

fn run(arguments: &[&str], folder: &Path) -> Output {
    Command::new(env!("CARGO_BIN_EXE_compare"))
        .args(arguments)
        .env("ORACLE", ORACLE)
        .current_dir(folder)
        .output()
        .expect("the program runs")
}

fn stdout(output: &Output) -> String {
    String::from_utf8_lossy(&output.stdout).into_owned()
}

fn stderr(output: &Output) -> String {
    String::from_utf8_lossy(&output.stderr).into_owned()
}

#[test]
fn the_oracle_agrees_with_itself() {
    let output = compare(&["./oracle", "2,5", "300"]);
    assert_eq!(output.status.code(), Some(0));
    let last = stdout(&output);
    assert!(last.contains(" lines agreed over 2 seeds in "), "{last}");
}

#[test]
fn a_difference_is_cut_down() {
    let output = compare(&["./oracle --variant refuse-room-more", "5", "300"]);
    assert_eq!(output.status.code(), Some(1));
    let text = stdout(&output);
    assert!(text.contains("\ncut down to 2 of "), "{text}");
    assert!(text.contains(" lines:\n\nopen 1 1 1 1 1 732\n"), "{text}");
    assert!(text.contains("\n\nline 2 differs\noracle: "), "{text}");
    assert!(text.contains("\nother:  5 0 0 "), "{text}");
}

#[test]
fn a_missing_program_is_told() {
    let output = compare(&["./no-such-program", "1", "10"]);
    assert_eq!(output.status.code(), Some(2));
    assert!(stderr(&output).starts_with("compare: cannot run `./no-such-program`: "));
}

#[test]
fn nothing_compared_is_no_success() {
    let nothing = [["0", "10"], ["2..1", "10"], ["1", "0"]];
    for [seeds, calls] in nothing {
        for what in ["./oracle", "variants"] {
            let output = compare(&[what, seeds, calls]);
            assert_eq!(output.status.code(), Some(1));
            assert!(stderr(&output).contains("nothing was compared"));
        }
    }
}

#[test]
fn bad_arguments_are_told() {
    let output = compare(&["./oracle", "1"]);
    assert_eq!(output.status.code(), Some(2));
    assert!(stderr(&output).contains("--help"));
    let help = compare(&["--help"]);
    assert_eq!(help.status.code(), Some(0));
    assert!(stdout(&help).contains("compare PROGRAM SEEDS CALLS"));
}

#[test]
fn too_few_lines_are_told() {
    let output = compare_shell("few.sh", "\"$ORACLE\" | head -n 3; exit 7");
    assert_eq!(output.status.code(), Some(1));
    let text = stdout(&output);
    assert!(text.contains("line 4 differs"), "{text}");
    assert!(
        text.contains("too few lines, ended with exit status: 7"),
        "{text}"
    );
}

#[test]
fn too_many_lines_are_told() {
    let output = compare_shell("many.sh", "\"$ORACLE\"; echo more");
    assert_eq!(output.status.code(), Some(1));
    let text = stdout(&output);
    assert!(text.contains("other:  too many lines: more"), "{text}");
}

#[test]
fn a_bad_end_is_told() {
    let output = compare_shell("end.sh", "\"$ORACLE\"; exit 3");
    assert_eq!(output.status.code(), Some(1));
    let text = stdout(&output);
    assert!(text.contains("other:  ends with exit status: 3"), "{text}");
}

#[test]
fn a_lost_newline_is_told() {
    let output = compare_shell("newline.sh", "printf %s \"$(\"$ORACLE\")\"");
    assert_eq!(output.status.code(), Some(1));
    let text = stdout(&output);
    assert!(text.contains("(without a newline)"), "{text}");
}

/// Programs that read everything first, or nothing and write without end.
#[test]
fn pipes_do_not_block() {
    let output = compare_shell(
        "late.sh",
        "input=$(cat)\nprintf '%s\\n' \"$input\" | \"$ORACLE\"",
    );
    assert_eq!(output.status.code(), Some(0), "{}", stdout(&output));
    let output = compare_shell("endless.sh", "exec yes");
    assert_eq!(output.status.code(), Some(1));
    let output = compare_shell("nothing.sh", "exit 0");
    assert_eq!(output.status.code(), Some(1));
}

#[test]
fn variants_are_listed_with_where_they_are_caught() {
    let output = compare(&["variants", "1", "20"]);
    assert_eq!(output.status.code(), Some(1));
    let text = stdout(&output);
    assert!(text.contains(" caught at seed 1 line "));
    assert!(text.contains(" NOT CAUGHT\n"));
    let count = text.lines().count() - 1;
    let last = text.lines().last().expect("a line");
    assert!(
        last.ends_with(&format!(" of {count} variants caught")),
        "{last}"
    );
}
