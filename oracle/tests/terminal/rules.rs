//! Rules that the worked forms do not settle, and what READINGS.md decides.

use crate::bench::{error, refused, subcommand, Bench};
use oracle::refusal::Refusal;
use oracle::telnet::{Held, Phase};

const DO: u8 = 253;
const DONT: u8 = 254;
const IAC: u8 = 255;

/// 28 with a position, then text.
fn sent(x: u8, y: u8, text: &[u8]) -> Vec<u8> {
    let mut bytes = subcommand(&[28, x, y]);
    bytes.extend(text);
    bytes
}

#[test]
fn facilities_answer_with_own_maps() {
    let mut form = Bench::form_f(3, 0);
    assert_eq!(form.command(&[1, 0]), subcommand(&[1, 126]));
    assert_eq!(form.command(&[2, 255]), subcommand(&[2, 31]));
    assert_eq!(form.command(&[3, 1]), subcommand(&[3, 63]));
    assert_eq!(form.command(&[4, 9, 9]), subcommand(&[4, 208, 121]));
}

#[test]
fn negotiation() {
    let mut screen = Bench::open(2, 2);
    assert_eq!(screen.host(&[IAC, DO, 20]), [IAC, 251, 20]);
    assert_eq!(screen.host(&[IAC, DO, 20]), []);
    assert_eq!(screen.host(&[IAC, DONT, 20]), [IAC, 252, 20]);
    assert_eq!(screen.host(&[IAC, DONT, 20]), []);
    assert_eq!(screen.host(&[IAC, 251, 20]), [IAC, DONT, 20]);
    assert_eq!(screen.host(&[IAC, 252, 20, IAC, DONT, 3]), []);
    assert_eq!(screen.host(&[IAC, DO, IAC]), [IAC, 252, IAC]);
    assert_eq!(screen.host(&[IAC, 251, IAC]), [IAC, DONT, IAC]);
}

#[test]
fn dont_20_ends_suppression_only_while_on() {
    let mut form = Bench::form_f(3, 0).suppressed();
    form.host(&[IAC, DONT, 20]);
    assert!(!form.terminal.session.suppressed);

    let mut form = Bench::form_f(3, 0).suppressed();
    form.terminal.session.det = false;
    form.host(&[IAC, DONT, 20]);
    assert!(form.terminal.session.suppressed);
}

#[test]
fn errors_in_their_order() {
    let mut form = Bench::form_f(3, 0);
    for code in [0, 18, 28, 39, 40, 42, 254] {
        assert_eq!(form.command(&[code, 1, 2, 3, 4, 5, 6]), error(code, 2));
    }
    assert_eq!(form.command(&[36, 255, 255]), error(36, 10));
    assert_eq!(form.command(&[36, 255, 255, 255, 255, 255]), error(36, 9));
    assert_eq!(form.command(&[36, 32, 0, 255, 255]), error(36, 12));
    assert_eq!(form.command(&[36, 0, 1, 0, 0]), error(36, 12));
    assert_eq!(form.command(&[36, 0, 0, 0, 14]), error(36, 11));
    assert_eq!(form.command(&[37, 0, 127]), error(37, 11));
    assert_eq!(form.command(&[38, 255]), error(38, 11));
    assert_eq!(form.command(&[41, 1]), error(41, 10));
    assert_eq!(form.command(&[17; 300]), error(17, 9));
    assert_eq!(form.command(&[5, 255, 255]), error(5, 3));
}

#[test]
fn a_thrown_away_subnegotiation_yields_to_its_command() {
    let mut form = Bench::form_f(3, 0);
    assert_eq!(form.host(&[IAC, 250, 20, 12, IAC, DO, 7]), [IAC, 252, 7]);
    let mut anew = vec![IAC, 250, 20, 12];
    anew.extend(subcommand(&[17]));
    assert_eq!(form.host(&anew), subcommand(&[18, 3, 0]));
    assert_eq!(form.host(&[IAC, 250, 20, 17, IAC, 241, b'A']), []);
    assert_eq!(form.line(0), "WT A0 #4");
    assert_eq!(form.terminal.session.reader.held, Held::default());
}

#[test]
fn held_bytes_stop_at_six_for_every_option() {
    let mut form = Bench::form_f(3, 0);
    form.host(&[IAC, 250, 99, 1, 2, 3, IAC, IAC, 5, 6, 7, 8]);
    let reader = &form.terminal.session.reader;
    let bytes = [1, 2, 3, 255, 5, 6];
    assert_eq!(
        (reader.phase, reader.held),
        (Phase::Sub(99), Held { count: 6, bytes })
    );
    assert_eq!(form.host(&[IAC, 240]), []);
    assert_eq!(form.terminal.session.reader.held, Held::default());
}

#[test]
fn subnegotiations_that_are_ignored() {
    let mut form = Bench::form_f(3, 0);
    assert_eq!(form.host(&[IAC, 250, IAC, 240]), []);
    assert_eq!(form.host(&[IAC, 250, IAC, IAC, 17, IAC, 240]), []);
    form.terminal.session.det = false;
    assert_eq!(form.command(&[17]), []);
}

#[test]
fn a_field_crosses_a_line_end() {
    let mut screen = Bench::with(2, 2, b"abcd", &[8, 0, 0, 8]).at(0, 1);
    assert_eq!(screen.command(&[23]), sent(1, 0, b"bc"));
    assert_eq!(screen.command(&[26]), sent(0, 1, b"c"));
    assert_eq!(screen.cursor(), (0, 1));
}

#[test]
fn guarded_cells_keep_their_field() {
    let mut form = Bench::form_f(7, 0);
    assert_eq!(form.command(&[23]), sent(7, 0, b""));
    assert_eq!(form.command(&[26]), sent(7, 0, b""));
    assert_eq!(form.command(&[22]), sent(0, 0, b"WT 70 #4"));
    assert_eq!(form.cursor(), (0, 1));
    let mut form = Bench::form_f(7, 0).suppressed();
    assert_eq!(form.command(&[23]), sent(6, 0, b"#4UNIT "));
}

#[test]
fn transmissions_and_where_they_leave_the_cursor() {
    let mut form = Bench::form_f(4, 1);
    assert_eq!(form.command(&[24]), sent(4, 1, b" mg "));
    assert_eq!(form.command(&[25]), sent(4, 1, b" mg "));
    assert_eq!(form.command(&[22]), sent(0, 1, b"UNIT mg "));
    assert_eq!(form.cursor(), (0, 1));
    assert_eq!(form.command(&[20]), sent(0, 0, b"WT 70 #4UNIT mg "));
    assert_eq!(form.cursor(), (0, 0));
    let mut closed = Bench::with(2, 1, b"ab", &[8, 8]).at(1, 0);
    assert_eq!(closed.command(&[21]), sent(0, 0, b""));
    assert_eq!(closed.cursor(), (0, 0));
}

#[test]
fn suppression_leaves_21_and_35_alone() {
    let mut form = Bench::form_f(0, 0).suppressed();
    let mut expected = sent(3, 0, b"70 ");
    expected.extend(subcommand(&[39]));
    expected.extend(b"mg ");
    assert_eq!(form.key(13), expected);
    form.command(&[35]);
    assert_eq!((form.line(0), form.line(1)), ("WT    #4", "UNIT    "));
    assert_eq!(form.cursor(), (3, 0));
}

#[test]
fn suppression_in_the_other_commands() {
    let mut form = Bench::form_f(7, 1);
    assert_eq!(form.command(&[38, DO]), subcommand(&[38, 251]));
    assert_eq!(form.command(&[38, DO]), []);
    form.command(&[12]);
    assert_eq!(form.cursor(), (0, 0));
    form.command(&[16]);
    assert_eq!(form.line(0), "T 70 #4 ");
    form.command(&[30]);
    assert_eq!(form.line(0), "        ");
    assert_eq!(form.command(&[38, 251]), subcommand(&[38, DONT]));
    assert_eq!(form.command(&[38, 252]), []);
    assert_eq!(form.command(&[38, DONT]), subcommand(&[38, 252]));
    assert_eq!(form.command(&[38, DONT]), []);
    form.command(&[12]);
    assert_eq!(form.cursor(), (3, 0));
}

#[test]
fn erasures_spare_guarded_cells() {
    let mut form = Bench::form_f(4, 0);
    form.command(&[34]);
    assert_eq!(form.line(0), "WT 7  #4");
    form.command(&[32]);
    assert_eq!((form.line(0), form.line(1)), ("WT 7  #4", "UNIT    "));
    form.command(&[31]);
    assert_eq!(form.line(0), "WT    #4");
    form.command(&[29]);
    assert_eq!((form.line(0), form.cursor()), ("        ", (0, 0)));
    assert_eq!(form.attrs, [0; 16]);
}

#[test]
fn format_data_sets_attributes_alone() {
    let mut form = Bench::form_f(6, 0);
    assert_eq!(form.command(&[36, 25, 0, 0, 10]), []);
    assert_eq!(form.attrs[6..], [25; 10]);
    assert_eq!((form.line(0), form.cursor()), ("WT 70 #4", (6, 0)));
    assert_eq!(form.command(&[36, 25, 0, 0, 11]), error(36, 11));
    assert_eq!(form.command(&[36, 25, 0, 0, 0]), []);
}

#[test]
fn bytes_are_taken_while_the_longest_reply_fits() {
    let mut form = Bench::form_f(3, 0);
    form.room = 144 + 2;
    let outcome = form.try_host(&[IAC, DO, 3, b'A']);
    assert_eq!((outcome.taken, outcome.written), (3, 3));
    form.room = 144 + 3;
    let outcome = form.try_host(&[IAC, DO, 3, b'A']);
    assert_eq!((outcome.taken, outcome.written), (4, 3));
}

#[test]
fn keys_and_their_refusals() {
    let mut form = Bench::form_f(3, 0);
    for key in (0..8).chain(10..13).chain(14..32).chain(144..=255) {
        assert_eq!(form.try_key(key), refused(Refusal::NoMeaning));
    }
    assert_eq!(form.key(128), subcommand(&[40, 1]));
    assert_eq!(form.key(143), subcommand(&[40, 16]));
    form.terminal.session.det = false;
    assert_eq!(form.try_key(13), refused(Refusal::DetOff));
    assert_eq!(form.try_key(128), refused(Refusal::DetOff));
    assert_eq!(form.key(127), []);
    assert_eq!(form.line(0), "WT 0  #4");
    form = form.at(0, 0);
    assert_eq!(form.try_key(127), refused(Refusal::Guarded));
}

#[test]
fn tab_and_back_keys() {
    let mut form = Bench::form_f(3, 0);
    for expected in [(5, 1), (3, 0), (5, 1)] {
        form.key(9);
        assert_eq!(form.cursor(), expected);
    }
    for expected in [(5, 0), (4, 0), (3, 0), (3, 0)] {
        form.key(8);
        assert_eq!(form.cursor(), expected);
    }
    let mut closed = Bench::with(2, 1, b"ab", &[8, 8]).at(1, 0);
    closed.key(9);
    closed.key(8);
    assert_eq!(closed.cursor(), (1, 0));
}

#[test]
fn classes_of_typed_characters() {
    for byte in 32..=126 {
        let letter = byte == b' ' || byte.is_ascii_alphabetic();
        let number = byte.is_ascii_digit() || b" +-.".contains(&byte);
        for (attr, fits) in [(16, letter), (24, number), (0, true)] {
            let mut cell = Bench::with(1, 1, b"x", &[attr]);
            let refusal = (!fits).then_some(Refusal::Class);
            assert_eq!(cell.try_key(byte).refusal, refusal, "{byte} on {attr}");
            assert_eq!(Bench::with(1, 1, b"x", &[attr]).suppressed().key(byte), []);
        }
    }
}

#[test]
fn data_controls_stop_at_the_edges() {
    let mut screen = Bench::open(3, 2);
    screen.host(b"ab\x08\x08\x08\x08");
    assert_eq!(screen.cursor(), (0, 0));
    screen.host(b"a\n\n\n");
    assert_eq!(screen.cursor(), (1, 1));
    screen.host(&[13, 9, 0, 127, 200, IAC, IAC]);
    assert_eq!(screen.cursor(), (0, 1));
    screen.host(b"xyzw");
    assert_eq!((screen.line(1), screen.cursor()), ("xyw", (2, 1)));
}
