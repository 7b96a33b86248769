//! What the command line is taken for.

use oracle::compare::arguments::{parse, Scripts, Task};
use oracle::compare::program::Program;
use oracle::compare::seeds::Seeds;

fn seeds(text: &str) -> Vec<u64> {
    let seeds = Seeds::parse(text).expect("seeds");
    assert_eq!(seeds.is_empty(), seeds.iter().next().is_none());
    seeds.iter().collect()
}

fn scripts(seeds: &str, calls: usize) -> Scripts {
    let seeds = Seeds::parse(seeds).expect("seeds");
    Scripts { seeds, calls }
}

#[test]
fn seeds_are_a_number_a_range_or_a_list() {
    assert_eq!(seeds("3"), [1, 2, 3]);
    assert_eq!(seeds("5..7"), [5, 6, 7]);
    assert_eq!(seeds("5..5"), [5]);
    assert_eq!(seeds("9,1,5"), [9, 1, 5]);
    assert_eq!(seeds("0"), []);
    assert_eq!(seeds("7..5"), []);
}

#[test]
fn other_seeds_are_refused() {
    for text in [
        "", "x", "-1", "1..", "..5", "1..=5", "1,", ",", "1, 2", "1.5",
    ] {
        assert!(Seeds::parse(text).is_err(), "{text}");
    }
}

#[test]
fn a_task_is_told_by_its_words() {
    assert_eq!(parse(&["--help"]), Ok(Task::Help));
    assert_eq!(parse(&["-h"]), Ok(Task::Help));
    let program = Program::new("a/b  --c d").expect("a program");
    let task = Task::Program(program, scripts("2..3", 40));
    assert_eq!(parse(&["a/b --c d", "2..3", "40"]), Ok(task));
    let task = Task::Variants(scripts("50", 1_000));
    assert_eq!(parse(&["variants", "50", "1000"]), Ok(task));
}

#[test]
fn other_arguments_are_refused() {
    let bad: [&[&str]; 9] = [
        &[],
        &["replay"],
        &["replay", "1"],
        &["replay", "1", "x"],
        &["replay", "x", "1"],
        &["replay", "1", "2", "3"],
        &[" ", "1", "2"],
        &["variants"],
        &["--help", "more"],
    ];
    for arguments in bad {
        assert!(parse(arguments).is_err(), "{arguments:?}");
    }
}

#[test]
fn no_seeds_or_no_calls_are_nothing() {
    assert!(scripts("0", 10).none());
    assert!(scripts("3..2", 10).none());
    assert!(scripts("3", 0).none());
    assert!(!scripts("3", 1).none());
}
