//! Request (iii): whole lines and the wrapped screen.

use crate::bench::{error, subcommand, Bench};

const P: u8 = 8;

/// Three lines of two, nothing protected, at (1, y).
fn three(y: u8) -> Bench {
    Bench::with(2, 3, b"abcdef", &[0; 6]).at(1, y)
}

fn lines(bench: &Bench) -> [&str; 3] {
    [bench.line(0), bench.line(1), bench.line(2)]
}

#[test]
fn a_line_is_inserted_above_the_cursor() {
    for (y, after) in [
        (0, ["  ", "ab", "cd"]),
        (1, ["ab", "  ", "cd"]),
        (2, ["ab", "cd", "  "]),
    ] {
        let mut screen = three(y);
        assert_eq!(screen.command(&[13]), []);
        assert_eq!((lines(&screen), screen.cursor()), (after, (1, y)));
    }
}

#[test]
fn the_cursor_s_line_is_deleted() {
    for (y, after) in [
        (0, ["cd", "ef", "  "]),
        (1, ["ab", "ef", "  "]),
        (2, ["ab", "cd", "  "]),
    ] {
        let mut screen = three(y);
        assert_eq!(screen.command(&[14]), []);
        assert_eq!((lines(&screen), screen.cursor()), (after, (1, y)));
    }
}

#[test]
fn attributes_stay() {
    let attrs = [P, 0, 16, 24, 1, 0];
    for code in [13, 14] {
        let mut screen = Bench::with(2, 3, b"abcdef", &attrs).at(0, 1);
        screen.command(&[code]);
        assert_eq!(screen.attrs, attrs);
        assert_ne!(screen.chars, b"abcdef");
    }
}

#[test]
fn a_guard_from_the_line_s_start_on_stops_both() {
    for cell in 0..6 {
        for code in [13, 14] {
            let mut attrs = [0; 6];
            attrs[cell] = P;
            let mut screen = Bench::with(2, 3, b"abcdef", &attrs).at(1, 1);
            assert_eq!(screen.command(&[code]), []);
            assert_eq!(screen.chars == b"abcdef", cell >= 2, "{cell}");
            let mut screen = Bench::with(2, 3, b"abcdef", &attrs).at(1, 1).suppressed();
            screen.command(&[code]);
            assert_ne!(screen.chars, b"abcdef");
        }
    }
}

#[test]
fn a_skip_to_a_line_goes_round() {
    let mut screen = three(1);
    for (y, to) in [(0, 0), (2, 2), (3, 0), (4, 1), (254, 2), (255, 0)] {
        assert_eq!(screen.command(&[6, y]), []);
        assert_eq!(screen.cursor(), (1, to), "{y}");
    }
}

/// Within the line y stays; past it, x DIV N lines further, round the screen.
#[test]
fn a_skip_to_a_character_goes_round() {
    for (x, to) in [
        (0, (0, 1)),
        (1, (1, 1)),
        (2, (0, 1)),
        (3, (1, 2)),
        (5, (1, 2)),
        (6, (0, 0)),
        (255, (1, 2)),
    ] {
        let mut screen = three(1);
        assert_eq!(screen.command(&[7, x]), []);
        assert_eq!(screen.cursor(), to, "{x}");
    }
    let mut wide = Bench::with(8, 2, &[b' '; 16], &[0; 16]).at(0, 1);
    wide.command(&[7, 7]);
    assert_eq!(wide.cursor(), (7, 1));
    wide.command(&[7, 10]);
    assert_eq!(wide.cursor(), (2, 0));
}

#[test]
fn skips_mind_no_guard() {
    let mut form = Bench::form_f(3, 0);
    form.command(&[6, 1]);
    assert_eq!(form.cursor(), (3, 1));
    form.command(&[7, 0]);
    assert_eq!(form.cursor(), (0, 1));
}

#[test]
fn parameters_and_facilities() {
    let mut screen = three(0);
    for code in [6, 7] {
        assert_eq!(screen.command(&[code]), error(code, 10));
        assert_eq!(screen.command(&[code, 0, 0]), error(code, 9));
    }
    for code in [13, 14] {
        assert_eq!(screen.command(&[code, 0]), error(code, 9));
    }
    assert_eq!(screen.command(&[1, 64]), subcommand(&[1, 126]));
    assert_eq!(screen.command(&[6, 1]), []);
    assert_eq!(screen.command(&[13]), error(13, 1));
    screen.command(&[1, 8]);
    assert_eq!(screen.command(&[14]), []);
    assert_eq!(screen.command(&[7, 1]), error(7, 1));
    assert_eq!(screen.cursor(), (1, 1));
}
