//! Request (ii): what is agreed, and ERROR 1.

use crate::bench::{error, subcommand, Bench};

const DO: u8 = 253;
const DONT: u8 = 254;
const IAC: u8 = 255;

const ALL: [u8; 5] = [126, 31, 63, 208, 121];

/// Each governed command, its facility command's code, its place among the
/// five maps, and its bit's value there.
const GOVERNED: [(u8, u8, usize, u8); 27] = [
    (27, 4, 3, 64),
    (6, 1, 0, 64),
    (7, 1, 0, 64),
    (13, 1, 0, 8),
    (14, 1, 0, 8),
    (8, 1, 0, 32),
    (9, 1, 0, 32),
    (10, 1, 0, 32),
    (11, 1, 0, 32),
    (15, 1, 0, 4),
    (16, 1, 0, 4),
    (17, 1, 0, 16),
    (19, 1, 0, 2),
    (30, 2, 1, 8),
    (31, 2, 1, 16),
    (32, 2, 1, 4),
    (33, 2, 1, 2),
    (34, 2, 1, 1),
    (22, 3, 2, 16),
    (23, 3, 2, 8),
    (24, 3, 2, 4),
    (25, 3, 2, 2),
    (26, 3, 2, 1),
    (37, 4, 3, 16),
    (38, 4, 4, 64),
    (21, 4, 4, 32),
    (35, 4, 4, 32),
];

/// DET on, nothing agreed.
fn fresh() -> Bench {
    let mut screen = Bench::open(3, 2);
    screen.host(&[IAC, DO, 20]);
    screen
}

fn inside(code: u8) -> Vec<u8> {
    match code {
        6 | 7 => vec![code, 1],
        37 => vec![37, 1, b'x'],
        38 => vec![38, 251],
        _ => vec![code],
    }
}

/// The facility command whose maps have that bit at that place.
fn ask(class: u8, place: usize, map: u8) -> Vec<u8> {
    match (class, place) {
        (4, 3) => vec![4, map, 0],
        (4, _) => vec![4, 0, map],
        _ => vec![class, map],
    }
}

#[test]
fn each_governed_command_needs_its_bit_and_no_other() {
    for (code, class, place, value) in GOVERNED {
        let mut screen = fresh();
        assert_eq!(screen.command(&inside(code)), error(code, 1), "{code}");
        screen.agree_all();
        assert_ne!(screen.command(&inside(code)), error(code, 1), "{code}");
        screen.command(&ask(class, place, !value));
        assert_eq!(screen.command(&inside(code)), error(code, 1), "{code}");
        let mut screen = fresh();
        screen.command(&ask(class, place, value));
        assert_ne!(screen.command(&inside(code)), error(code, 1), "{code}");
    }
}

#[test]
fn other_commands_need_nothing() {
    let mut screen = fresh();
    for inside in [&[5, 1, 1][..], &[12], &[29], &[36, 8, 0, 0, 1], &[41, 1, 1]] {
        assert_eq!(screen.command(inside), []);
    }
    assert_eq!(screen.attrs[0], 8);
    let sent = [subcommand(&[28, 0, 0]), b"      ".to_vec()].concat();
    assert_eq!(screen.command(&[20]), sent);
    for code in [0, 18, 28, 39, 40, 42] {
        assert_eq!(screen.command(&[code]), error(code, 2));
    }
}

#[test]
fn error_1_comes_before_the_count_and_changes_nothing() {
    let mut screen = fresh();
    assert_eq!(screen.command(&[8, 1]), error(8, 1));
    assert_eq!(screen.command(&[37]), error(37, 1));
    assert_eq!(screen.command(&[37, 1, 2, 3, 4, 5, 6, 7]), error(37, 1));
    assert_eq!(screen.command(&[37, 1, 127]), error(37, 1));
    assert_eq!(screen.command(&[38, DO]), error(38, 1));
    assert_eq!(screen.command(&[38, 9]), error(38, 1));
    assert!(!screen.terminal.session.suppressed);
    assert_eq!(screen.command(&[37, 2, b'x']), error(37, 1));
    assert_eq!((screen.line(0), screen.cursor()), ("   ", (0, 0)));
}

#[test]
fn the_latest_facility_command_of_a_class_counts() {
    let mut screen = fresh();
    screen.agree_all();
    assert_eq!(screen.agreed(), ALL);
    screen.command(&[1, 2]);
    assert_eq!(screen.agreed(), [2, 31, 63, 208, 121]);
    screen.command(&[1, 4]);
    screen.command(&[4, 0, 0]);
    assert_eq!(screen.agreed(), [4, 31, 63, 0, 0]);
    screen.command(&[3, 0]);
    assert_eq!(screen.agreed(), [4, 31, 0, 0, 0]);
}

#[test]
fn a_facility_command_with_an_error_does_not_count() {
    let mut screen = fresh();
    screen.agree_all();
    assert_eq!(screen.command(&[1, 0, 0]), error(1, 9));
    assert_eq!(screen.command(&[2]), error(2, 10));
    assert_eq!(screen.command(&[4, 0]), error(4, 10));
    assert_eq!(screen.agreed(), ALL);
}

#[test]
fn only_dont_20_while_on_and_open_end_an_agreement() {
    let mut screen = fresh();
    screen.agree_all();
    screen.host(&[IAC, DO, 20, IAC, 252, 20, IAC, 251, 20, IAC, DONT, 30]);
    assert_eq!(screen.agreed(), ALL);
    screen.terminal.session.det = false;
    screen.host(&[IAC, DONT, 20]);
    screen.host(&subcommand(&[1, 2]));
    assert_eq!(screen.agreed(), ALL);
    screen.host(&[IAC, DO, 20]);
    assert_eq!(screen.agreed(), ALL);
    screen.host(&[IAC, DONT, 20, IAC, DO, 20]);
    assert_eq!(screen.agreed(), [0; 5]);
    assert_eq!(screen.command(&[19]), error(19, 1));
}

#[test]
fn the_intensity_bits_are_met_bit_by_bit() {
    let mut screen = fresh();
    for (asked, agreed) in [(2, 0), (3, 1), (6, 0), (7, 1)] {
        screen.command(&[4, 0, asked]);
        assert_eq!(screen.agreed()[4], agreed);
    }
}

#[test]
fn keys_need_no_facility() {
    let mut screen = fresh();
    screen.host(b"ab\x08\x08");
    assert_eq!(screen.key(127), []);
    assert_eq!(screen.line(0), "b  ");
    assert_eq!(screen.key(128), subcommand(&[40, 1]));
    let sent = [subcommand(&[28, 0, 0]), b"b     ".to_vec()].concat();
    assert_eq!(screen.key(13), sent);
}
