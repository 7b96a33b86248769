//! The worked forms.

use crate::bench::{refused, Bench};
use oracle::refusal::Refusal;
use oracle::terminal::{Buffers, Outcome, Terminal};

#[test]
fn p1_char_delete() {
    let mut form = Bench::form_f(3, 0);
    let reply = form.host(&[0xff, 0xfa, 0x14, 0x10, 0xff, 0xf0]);
    assert_eq!(form.line(0), "WT 0  #4");
    assert_eq!(form.line(1), "UNIT mg ");
    assert_eq!((reply, form.cursor()), (vec![], (3, 0)));
}

#[test]
fn p2_char_insert() {
    let mut form = Bench::form_f(3, 0);
    let reply = form.host(&[0xff, 0xfa, 0x14, 0x0f, 0xff, 0xf0]);
    assert_eq!(form.line(0), "WT  70#4");
    assert_eq!(form.line(1), "UNIT mg ");
    assert_eq!((reply, form.cursor()), (vec![], (3, 0)));
}

#[test]
fn p3_transmit_unprotected() {
    let mut form = Bench::form_f(3, 0);
    let reply = form.host(&[0xff, 0xfa, 0x14, 0x15, 0xff, 0xf0]);
    let mut expected = vec![0xff, 0xfa, 0x14, 0x1c, 0x03, 0x00, 0xff, 0xf0];
    expected.extend([0x37, 0x30, 0x20, 0xff, 0xfa, 0x14, 0x27, 0xff, 0xf0]);
    expected.extend([0x6d, 0x67, 0x20]);
    assert_eq!(reply, expected);
    assert_eq!(form.cursor(), (3, 0));
}

#[test]
fn p4_move_cursor() {
    let mut form = Bench::form_f(3, 0);
    let reply = form.host(&[0xff, 0xfa, 0x14, 0x05, 0x09, 0x01, 0xff, 0xf0]);
    assert_eq!(form.cursor(), (7, 1));
    assert_eq!(reply, [0xff, 0xfa, 0x14, 0x29, 0x05, 0x03, 0xff, 0xf0]);

    let mut form = Bench::form_f(3, 0);
    let reply = form.host(&[0xff, 0xfa, 0x14, 0x05, 0x07, 0x01, 0xff, 0xf0]);
    assert_eq!(form.cursor(), (7, 1));
    assert_eq!(reply, []);
}

#[test]
fn p5_guarded_cell() {
    let mut form = Bench::form_f(6, 0);
    let reply = form.host(b"A");
    assert_eq!((reply, form.cursor()), (vec![], (6, 0)));
    assert_eq!(form.line(0), "WT 70 #4");

    assert_eq!(form.try_key(b'A'), refused(Refusal::Guarded));
    assert_eq!(Refusal::Guarded.number(), 6);
    assert_eq!((form.line(0), form.cursor()), ("WT 70 #4", (6, 0)));
}

#[test]
fn p6_typed_and_from_the_host() {
    let mut form = Bench::form_f(5, 0);
    assert_eq!(form.key(b'8'), []);
    assert_eq!((form.line(0), form.cursor()), ("WT 708#4", (5, 1)));

    let mut form = Bench::form_f(5, 0);
    assert_eq!(form.host(b"8"), []);
    assert_eq!((form.line(0), form.cursor()), ("WT 708#4", (6, 0)));
}

#[test]
fn p7_repeat() {
    let mut form = Bench::form_f(4, 0);
    assert_eq!(form.command(&[37, 3, b'x']), []);
    assert_eq!((form.line(0), form.cursor()), ("WT 7xx#4", (6, 0)));
}

#[test]
fn p8_reverse_tab() {
    let mut form = Bench::form_f(6, 1);
    for expected in [(5, 1), (3, 0), (0, 0)] {
        assert_eq!(form.command(&[19]), []);
        assert_eq!(form.cursor(), expected);
    }
}

#[test]
fn p9_no_command_byte() {
    let mut form = Bench::form_f(3, 0);
    let reply = form.host(&[0xff, 0xfa, 0x14, 0xff, 0xf0]);
    assert_eq!(reply, [0xff, 0xfa, 0x14, 0x29, 0x00, 0x0a, 0xff, 0xf0]);
}

#[test]
fn p10_command_255() {
    let mut form = Bench::form_f(3, 0);
    let reply = form.host(&[0xff, 0xfa, 0x14, 0xff, 0xff, 0xff, 0xf0]);
    assert_eq!(
        reply,
        [0xff, 0xfa, 0x14, 0x29, 0xff, 0xff, 0x02, 0xff, 0xf0]
    );
}

#[test]
fn do_of_another_option() {
    let mut form = Bench::form_f(3, 0);
    assert_eq!(form.host(&[0xff, 0xfd, 0x03]), [0xff, 0xfc, 0x03]);
}

#[test]
fn reply_room() {
    let mut form = Bench::form_f(3, 0);
    form.room = 144;
    assert_eq!(form.try_host(b"").refusal, None);
    assert_eq!(form.try_key(9).refusal, None);
    form.room = 143;
    assert_eq!(form.try_host(b"A"), refused(Refusal::Room));
    assert_eq!(form.try_key(9), refused(Refusal::Room));
    assert_eq!(Refusal::Room.number(), 5);
}

#[test]
fn sizes() {
    let open = |m: u16, n: u16| {
        let cells = usize::from(m) * usize::from(n);
        let mut lent = [(); 3].map(|()| vec![0; cells]);
        let [chars, attrs, marks] = &mut lent;
        Terminal::default().open(
            m,
            n,
            732,
            Buffers {
                chars,
                attrs,
                marks,
            },
        )
    };
    assert_eq!(open(132, 64), Outcome::default());
    assert_eq!(open(133, 64), refused(Refusal::Size));
    assert_eq!(open(132, 65), refused(Refusal::Size));
    assert_eq!(open(0, 1), refused(Refusal::Size));
    assert_eq!(open(1, 0), refused(Refusal::Size));
    assert_eq!(Refusal::Size.number(), 1);
}

#[test]
fn the_screen_that_show_prints() {
    let mut screen = Bench::open(8, 2);
    let replies = screen.host(b"HI");
    assert_eq!(screen.cursor(), (2, 0));
    assert_eq!((screen.line(0), screen.line(1)), ("HI      ", "        "));
    assert_eq!(replies.len(), 0);
}
