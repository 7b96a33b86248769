//! Request (vi): June's codes and September's.

use crate::bench::{refused, subcommand, Bench};
use oracle::edition::Edition;
use oracle::refusal::Refusal;
use oracle::terminal::{Buffers, Outcome, Terminal};

const DO: u8 = 253;
const DONT: u8 = 254;
const IAC: u8 = 255;

/// An ERROR as June has it.
fn june_error(code: u8, number: u8) -> Vec<u8> {
    subcommand(&[40, code, number])
}

/// 27 with a position, then text.
fn sent(x: u8, y: u8, text: &[u8]) -> Vec<u8> {
    let mut bytes = subcommand(&[27, x, y]);
    bytes.extend(text);
    bytes
}

#[test]
fn codes_and_meanings_undo_each_other() {
    for edition in Edition::ALL {
        for code in 1..=40 {
            assert_eq!(edition.code(edition.meaning(code)), Some(code));
        }
        assert_eq!(edition.meaning(0), 0);
        for code in 42..=255 {
            assert_eq!(edition.meaning(code), 0);
        }
    }
    let (june, september) = (Edition::June, Edition::September);
    for code in 1..=26 {
        assert_eq!(june.meaning(code), september.meaning(code));
    }
    for code in 27..=40 {
        assert_eq!(june.meaning(code), september.meaning(code + 1));
    }
    assert_eq!((june.meaning(41), september.meaning(41)), (0, 41));
    assert_eq!(june.code(september.meaning(27)), None);
}

#[test]
fn june_s_answers_have_june_s_codes() {
    let mut form = Bench::june(3, 0);
    let both = [sent(3, 0, b"70 "), subcommand(&[38]), b"mg ".to_vec()].concat();
    assert_eq!(form.command(&[21]), both);
    assert_eq!(form.key(13), both);
    assert_eq!(form.key(129), subcommand(&[39, 2]));
    assert_eq!(form.command(&[17]), subcommand(&[18, 3, 0]));
    assert_eq!(form.command(&[23]), sent(3, 0, b"70 "));
    assert_eq!(form.command(&[37, DO]), subcommand(&[37, 251]));
    assert_eq!(form.command(&[37, 251]), subcommand(&[37, DONT]));
    assert_eq!(form.command(&[37, DONT]), subcommand(&[37, 252]));
    assert_eq!(form.command(&[5, 9, 1]), june_error(5, 3));
    assert_eq!(form.command(&[]), june_error(0, 10));
    assert_eq!(form.command(&[255]), june_error(255, 2));
}

#[test]
fn june_s_map_lacks_the_bit_of_modified() {
    let mut form = Bench::june(3, 0);
    assert_eq!(form.command(&[4, 255, 255]), subcommand(&[4, 144, 121]));
    assert_eq!(form.agreed(), [126, 31, 63, 144, 121]);
    for (class, own) in [(1, 126), (2, 31), (3, 63)] {
        assert_eq!(form.command(&[class, 255]), subcommand(&[class, own]));
    }
}

#[test]
fn june_s_later_codes_are_one_lower() {
    let mut form = Bench::june(4, 0);
    assert_eq!(form.command(&[36, 3, b'x']), []);
    assert_eq!((form.line(0), form.cursor()), ("WT 7xx#4", (6, 0)));
    assert_eq!(form.command(&[35, 0, 0, 0, 2]), []);
    assert_eq!(form.attrs[5..9], [0, 0, 0, 8]);
    form.command(&[29]);
    assert_eq!(form.line(0), "WT      ");
    form.host(b"ab");
    form = form.at(6, 0);
    form.command(&[33]);
    assert_eq!(form.line(0), "WT      ");
    assert_eq!(form.command(&[40, 1, 1]), []);
    form.marks[0] = 1;
    form.command(&[34]);
    assert_eq!((form.line(1), form.marks[0]), ("UNIT    ", 0));
    form.command(&[28]);
    assert_eq!(form.attrs, [0; 16]);
}

#[test]
fn what_june_lacks_draws_error_2() {
    let mut form = Bench::june(3, 0);
    form.marks.fill(1);
    for code in [0, 18, 27, 38, 39, 41, 42] {
        assert_eq!(form.command(&[code]), june_error(code, 2), "{code}");
    }
    assert_eq!(form.marks, [1; 16]);
}

/// The numbers and the four parameters are the same in both.
#[test]
fn errors_have_the_same_numbers() {
    let mut form = Bench::june(3, 0);
    assert_eq!(form.command(&[35, 0, 0, 0]), june_error(35, 10));
    assert_eq!(form.command(&[35, 0, 0, 0, 0, 0]), june_error(35, 9));
    assert_eq!(form.command(&[35, 32, 0, 0, 1]), june_error(35, 12));
    assert_eq!(form.command(&[35, 0, 1, 0, 1]), june_error(35, 12));
    assert_eq!(form.command(&[35, 0, 0, 0, 14]), june_error(35, 11));
    assert_eq!(form.command(&[36, 1, 127]), june_error(36, 11));
    assert_eq!(form.command(&[37, 250]), june_error(37, 11));
    form.command(&[4, 0, 0]);
    assert_eq!(form.command(&[36, 1, 65]), june_error(36, 1));
    assert_eq!(form.command(&[37, DO]), june_error(37, 1));
    assert_eq!(form.command(&[34]), june_error(34, 1));
    form.command(&[2, 0]);
    for code in 29..=33 {
        assert_eq!(form.command(&[code]), june_error(code, 1));
    }
}

#[test]
fn all_else_is_as_in_september() {
    let mut form = Bench::june(4, 0);
    form.key(b'x');
    assert_eq!(form.marks[4], 1);
    form.room = 144;
    assert_eq!(form.try_key(9).refusal, None);
    form.room = 143;
    assert_eq!(form.try_key(9), refused(Refusal::Room));
    form.marks[0] = 2;
    assert_eq!(form.try_key(9), refused(Refusal::Mark));
}

#[test]
fn the_edition_lasts_until_the_next_open() {
    let mut form = Bench::june(3, 0);
    form.host(&[IAC, DONT, 20, IAC, DO, 20]);
    assert_eq!(form.command(&[41]), june_error(41, 2));
    assert_eq!(form.terminal.session.edition, Edition::June);
}

#[test]
fn another_edition_is_refused_right_after_1() {
    let open = |m: u16, edition: u16, extra: usize| {
        let mut lent = [(); 3].map(|()| vec![7; usize::from(m) + extra]);
        let [chars, attrs, marks] = &mut lent;
        let buffers = Buffers {
            chars,
            attrs,
            marks,
        };
        let mut terminal = Terminal::default();
        let outcome = terminal.open(m, 1, edition, buffers);
        (outcome, terminal.session.edition)
    };
    let september = Edition::September;
    assert_eq!(open(3, 731, 0), (Outcome::default(), Edition::June));
    assert_eq!(open(3, 732, 0), (Outcome::default(), september));
    for edition in [0, 730, 733, 65_535] {
        assert_eq!(open(3, edition, 0), (refused(Refusal::Edition), september));
        assert_eq!(open(3, edition, 1), (refused(Refusal::Edition), september));
        assert_eq!(open(0, edition, 0), (refused(Refusal::Size), september));
    }
    assert_eq!(open(3, 731, 1), (refused(Refusal::Buffers), september));
    assert_eq!(Refusal::Edition.number(), 12);
}
