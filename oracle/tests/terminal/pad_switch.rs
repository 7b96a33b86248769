//! Option 30 on and off, beside DET, and host text while it works.

use crate::bench::{refused, subcommand, Bench};
use oracle::refusal::Refusal;

const IAC: u8 = 255;
const WILL: u8 = 251;
const WONT: u8 = 252;
const DO: u8 = 253;
const DONT: u8 = 254;

#[test]
fn negotiation_as_of_20() {
    let mut screen = Bench::open(37, 1);
    assert_eq!(screen.host(&[IAC, DO, 30]), [IAC, WILL, 30]);
    assert_eq!(screen.host(&[IAC, DO, 30]), []);
    assert_eq!(screen.host(&[IAC, DONT, 30]), [IAC, WONT, 30]);
    assert_eq!(screen.host(&[IAC, DONT, 30]), []);
    assert_eq!(screen.host(&[IAC, WILL, 30]), [IAC, DONT, 30]);
    assert_eq!(screen.host(&[IAC, WONT, 30]), []);
}

#[test]
fn thirty_seven_cells_are_needed() {
    for (m, n) in [(36, 1), (6, 6), (1, 36), (1, 1)] {
        let mut small = Bench::open(m, n);
        assert_eq!(small.host(&[IAC, DO, 30]), [IAC, WONT, 30]);
        assert!(!small.terminal.session.pad.on);
        small.terminal.session.pad.on = true;
        assert_eq!(small.try_host(b""), refused(Refusal::Session));
        assert_eq!(small.try_key(b'A'), refused(Refusal::Session));
        small.room = 0;
        assert_eq!(small.try_key(200), refused(Refusal::Session));
    }
    for (m, n) in [(37, 1), (1, 37), (19, 2), (132, 64)] {
        Bench::pad(m, n).keys(b"A");
    }
}

#[test]
fn dont_30_loses_the_line_alone() {
    let mut pad = Bench::pad(37, 1).set(&[2, 1, 3, 2]).suppressed();
    pad.keys(b"abc");
    assert_eq!(pad.host(&[IAC, DONT, 30]), [IAC, WONT, 30]);
    assert_eq!(pad.edit_line(), b"");
    assert_eq!((pad.parameter(2), pad.parameter(3)), (1, 2));
    assert!(pad.terminal.session.suppressed);
    assert_eq!(&pad.line(0)[..4], "abc ");
    assert_eq!(pad.host(&[IAC, DO, 30]), [IAC, WILL, 30]);
    assert_eq!(pad.parameter(2), 1);
}

#[test]
fn dont_30_while_off_does_nothing() {
    let mut pad = Bench::pad(37, 1);
    pad.keys(b"abc");
    pad.terminal.session.pad.on = false;
    assert_eq!(pad.host(&[IAC, DONT, 30]), []);
    assert_eq!(pad.edit_line(), b"abc");
}

#[test]
fn det_keeps_the_line_and_takes_the_keys() {
    let mut pad = Bench::pad(37, 1).set(&[2, 1, 3, 2]);
    pad.keys(b"ab");
    assert_eq!(pad.host(&[IAC, DO, 20]), [IAC, WILL, 20]);
    assert_eq!(pad.edit_line(), b"ab");
    assert_eq!(pad.key(b'X'), []);
    assert_eq!((&pad.line(0)[..4], pad.edit_line()), ("abX ", &b"ab"[..]));
    assert_eq!(pad.try_key(0), refused(Refusal::NoMeaning));
    assert_eq!(pad.key(128), subcommand(&[40, 1]));
    assert_eq!(pad.host(&[IAC, DONT, 20]), [IAC, WONT, 20]);
    assert_eq!(pad.key(13), b"ab\r\0");
}

#[test]
fn messages_count_with_det_on_too() {
    let mut pad = Bench::pad(37, 1);
    pad.host(&[IAC, DO, 20]);
    let mut pad = pad.set(&[3, 2]);
    assert_eq!(pad.parameter(3), 2);
    assert_eq!(pad.message(&[4])[..4], [IAC, 250, 30, 3]);
    pad.host(&[IAC, DONT, 30]);
    assert_eq!(pad.message(&[0, 3, 1]), []);
    assert_eq!(pad.message(&[4]), []);
    assert_eq!(pad.parameter(3), 2);
}

/// Where the cursor comes to from the screen's start.
fn after(parameter_13: u8, bytes: &[u8]) -> (u8, u8) {
    let mut pad = Bench::pad(10, 4).set(&[13, parameter_13]);
    pad.host(bytes);
    pad.cursor()
}

#[test]
fn host_cr_lf() {
    assert_eq!(after(0, b"ab\r\nc"), (1, 0));
    assert_eq!(after(6, b"ab\r\nc"), (1, 0));
    assert_eq!(after(1, b"ab\r\nc"), (1, 1));
    assert_eq!(after(0, b"ab\nc"), (3, 1));
    assert_eq!(after(0, b"ab\r\n\nc"), (1, 1));
    assert_eq!(after(0, b"ab\r\0\nc"), (1, 1));
    assert_eq!(after(0, b"ab\r\xff\xff\nc"), (1, 1));
    assert_eq!(after(0, b"ab\r\xff\xf1\nc"), (1, 0));
    assert_eq!(after(0, b"\r\xff\xfa\x1e\x00\x0d\x01\xff\xf0\n"), (0, 1));
}

#[test]
fn host_cr_and_lf_in_two_calls() {
    let mut pad = Bench::pad(10, 4).set(&[2, 1]);
    pad.host(b"ab\r");
    pad.keys(b"xyz");
    pad.host(b"\n");
    assert_eq!((pad.line(0), pad.cursor()), ("xyz       ", (3, 0)));
    pad.host(b"\n");
    assert_eq!(pad.cursor(), (3, 1));
}

#[test]
fn host_lf_is_obeyed_where_the_pad_does_not_work() {
    let mut off = Bench::open(10, 4);
    off.host(b"ab\r\n");
    assert_eq!(off.cursor(), (0, 1));
    let mut det = Bench::pad(10, 4);
    det.host(b"\xff\xfd\x14ab\r\n");
    assert_eq!(det.cursor(), (0, 1));
    det.host(b"ab\r\xff\xfe\x14\n");
    assert_eq!(det.cursor(), (0, 1));
}
