//! Request (v): marks, and 27.

use crate::bench::{error, refused, subcommand, Bench};
use oracle::refusal::Refusal;

const P: u8 = 8;
const IAC: u8 = 255;

/// 28 with a position, then text.
fn sent(x: u8, y: u8, text: &[u8]) -> Vec<u8> {
    let mut bytes = subcommand(&[28, x, y]);
    bytes.extend(text);
    bytes
}

/// Form F with those cells marked.
fn marked(cells: &[usize]) -> Bench {
    let mut form = Bench::form_f(7, 1);
    for &cell in cells {
        form.marks[cell] = 1;
    }
    form
}

fn marks(bench: &Bench) -> Vec<usize> {
    let cells = 0..bench.marks.len();
    cells.filter(|&cell| bench.marks[cell] == 1).collect()
}

#[test]
fn open_clears_and_the_map_is_208() {
    let mut form = Bench::form_f(3, 0);
    assert_eq!(form.marks, [0; 16]);
    assert_eq!(form.command(&[4, 0, 0]), subcommand(&[4, 208, 121]));
    assert_eq!(form.command(&[27]), error(27, 1));
    form.command(&[4, 64, 0]);
    assert_eq!(form.command(&[27, 1]), error(27, 9));
    assert_eq!(form.command(&[27]), []);
}

#[test]
fn each_marked_unprotected_field_is_sent_with_its_preface() {
    let mut form = marked(&[5, 13]);
    let expected = [sent(3, 0, b"70 "), sent(5, 1, b"mg ")].concat();
    assert_eq!(form.command(&[27]), expected);
    assert_eq!((form.cursor(), form.marks), ((3, 0), vec![0; 16]));

    let mut form = marked(&[14]);
    assert_eq!(form.command(&[27]), sent(5, 1, b"mg "));
    assert_eq!((form.cursor(), form.marks), ((3, 0), vec![0; 16]));
}

#[test]
fn without_a_marked_field_nothing_is_sent() {
    let mut form = marked(&[0, 9]);
    assert_eq!(form.command(&[27]), []);
    assert_eq!((form.cursor(), form.marks), ((3, 0), vec![0; 16]));
    let mut form = marked(&[0, 9]).suppressed();
    assert_eq!(form.command(&[27]), []);
    let mut closed = Bench::with(2, 1, b"ab", &[P, P]).at(1, 0);
    assert_eq!(closed.command(&[27]), []);
    assert_eq!(closed.cursor(), (0, 0));
}

#[test]
fn the_longest_reply_fills_the_room() {
    let mut screen = Bench::with(2, 2, b"abcd", &[0, 1, 0, 1]);
    screen.marks.fill(1);
    screen.room = 36 + 3;
    let mut input = vec![IAC, 253, 3];
    input.extend(subcommand(&[27]));
    assert_eq!(screen.host(&input).len(), 3 + 36);
}

#[test]
fn typing_marks_its_cell() {
    let mut form = Bench::form_f(4, 0);
    form.key(b'0');
    form.key(b'x');
    assert_eq!(marks(&form), [4, 5]);
    form.key(9);
    form.key(8);
    form.key(13);
    form.host(b"host");
    form.command(&[37, 3, b'x']);
    assert_eq!(marks(&form), [4, 5]);
    assert_eq!(form.try_key(b'A').refusal, Some(Refusal::Guarded));
    assert_eq!(marks(&form), [4, 5]);
}

#[test]
fn shifts_mark_all_that_they_write() {
    for code in [15, 16] {
        let mut form = Bench::form_f(4, 0);
        form.command(&[code]);
        assert_eq!(marks(&form), [4, 5]);
        let mut form = Bench::form_f(6, 0);
        form.command(&[code]);
        assert_eq!(marks(&form), []);
        let mut form = Bench::form_f(6, 0).suppressed();
        form.command(&[code]);
        assert_eq!(marks(&form), [6, 7]);
    }
    let mut form = Bench::form_f(3, 0);
    form.key(127);
    assert_eq!(marks(&form), [3, 4, 5]);
    for code in [13, 14] {
        let mut screen = Bench::with(2, 3, &[b' '; 6], &[0; 6]).at(1, 1);
        screen.command(&[code]);
        assert_eq!(marks(&screen), [2, 3, 4, 5]);
        screen.attrs[5] = P;
        screen.marks.fill(0);
        screen.command(&[code]);
        assert_eq!(marks(&screen), []);
    }
}

#[test]
fn only_open_27_29_and_35_clear() {
    for code in [27, 29, 35] {
        let mut form = marked(&[0, 4, 9]);
        form.command(&[code]);
        assert_eq!(marks(&form), [], "{code}");
    }
    let mut form = marked(&[0, 4, 9]);
    for code in (20..=26).chain(30..=34) {
        form.command(&[code]);
    }
    form.command(&[36, 0, 0, 0, 1]);
    form.host(&[IAC, 254, 20, IAC, 253, 20]);
    assert_eq!(marks(&form), [0, 4, 9]);
}

#[test]
fn an_echo_does_not_mark() {
    let mut pad = Bench::pad(37, 1).set(&[2, 1]);
    pad.keys(b"abc");
    assert_eq!((&pad.chars[..3], marks(&pad)), (&b"abc"[..], vec![]));
}

#[test]
fn a_mark_above_1_and_a_wrong_length_are_refused() {
    let mut form = marked(&[]);
    form.marks[3] = 2;
    assert_eq!(form.try_host(b"A"), refused(Refusal::Mark));
    assert_eq!(form.try_key(0), refused(Refusal::Mark));
    assert_eq!(Refusal::Mark.number(), 11);
    form.room = 0;
    assert_eq!(form.try_key(0), refused(Refusal::Mark));
    form.terminal.session.reader.held.count = 7;
    assert_eq!(form.try_key(0), refused(Refusal::Session));
    form.marks.pop();
    assert_eq!(form.try_key(0), refused(Refusal::Buffers));
}
