//! June's edition: its codes, as they are read and as they are written.

mod form;
mod lent;

use host::terminal::{self, at, reply_room, JUNE};

use form::{form, marked};
use lent::Call::{self, Host, Key};
use lent::{cut_anywhere, Lent, LENT};

/// Form F in June's edition.
fn june(x: u8, y: u8) -> Lent {
    form(x, y).changed(|lent| lent.session[at::EDITION] = 0)
}

#[test]
fn opened_in_june() {
    let (mut chars, mut attrs, mut marks) = ([0; 2], [0; 2], [0; 2]);
    let mut reply = [0; reply_room(2, 1)];
    let opened = terminal::open(2, 1, JUNE, &mut chars, &mut attrs, &mut marks);
    let mut session = opened.expect("an edition");
    let counts = session.host_bytes(
        b"\xff\xfd\x14",
        &mut chars,
        &mut attrs,
        &mut marks,
        &mut reply,
    );
    assert_eq!(counts.map(|counts| counts.written), Ok(3));
    let counts = session.key(128, &mut chars, &attrs, &mut marks, &mut reply);
    assert_eq!(counts.map(|counts| counts.written), Ok(7));
    assert_eq!(reply[..7], *b"\xff\xfa\x14\x27\x01\xff\xf0");
    assert_eq!(session.edition(), JUNE);
}

/// A call on form F with the cursor at the weight; what it draws, and the first
/// line then.
type Worked = (Call<'static>, &'static [u8], &'static [u8; 8]);

#[rustfmt::skip]
const WORKED: &[Worked] = &[
    // TRANSMIT UNPROTECTED is 21 in both: what it draws is not.
    (Host(b"\xff\xfa\x14\x15\xff\xf0"),
        b"\xff\xfa\x14\x1b\x03\x00\xff\xf070 \xff\xfa\x14\x26\xff\xf0mg ", b"WT 70 #4"),
    (Host(b"\xff\xfa\x14\xff\xf0"), b"\xff\xfa\x14\x28\x00\x0a\xff\xf0", b"WT 70 #4"),
    (Host(b"\xff\xfa\x14\x05\x09\x01\xff\xf0"), b"\xff\xfa\x14\x28\x05\x03\xff\xf0", b"WT 70 #4"),
    // September's TRANSMIT MODIFIED.
    (Host(b"\xff\xfa\x14\x1b\xff\xf0"), b"\xff\xfa\x14\x28\x1b\x02\xff\xf0", b"WT 70 #4"),
    // ERASE SCREEN; September's is ERASE LINE here.
    (Host(b"\xff\xfa\x14\x1c\xff\xf0"), b"", b"        "),
    (Host(b"\xff\xfa\x14\x1d\xff\xf0"), b"", b"WT    #4"),
    // FORMAT DATA with four parameters, with three, and September's.
    (Host(b"\xff\xfa\x14\x23\x08\x00\x00\x03\xff\xf0"), b"", b"WT 70 #4"),
    (Host(b"\xff\xfa\x14\x23\x08\x00\x03\xff\xf0"), b"\xff\xfa\x14\x28\x23\x0a\xff\xf0",
        b"WT 70 #4"),
    (Host(b"\xff\xfa\x14\x24\x08\x00\x00\x03\xff\xf0"), b"\xff\xfa\x14\x28\x24\x09\xff\xf0",
        b"WT 70 #4"),
    // REPEAT.
    (Host(b"\xff\xfa\x14\x24\x03x\xff\xf0"), b"", b"WT xxx#4"),
    // SUPPRESS PROTECTION, and September's.
    (Host(b"\xff\xfa\x14\x25\xfd\xff\xf0"), b"\xff\xfa\x14\x25\xfb\xff\xf0", b"WT 70 #4"),
    (Host(b"\xff\xfa\x14\x26\xfd\xff\xf0"), b"\xff\xfa\x14\x28\x26\x02\xff\xf0", b"WT 70 #4"),
    // ERROR, and September's.
    (Host(b"\xff\xfa\x14\x28\x00\x00\xff\xf0"), b"", b"WT 70 #4"),
    (Host(b"\xff\xfa\x14\x29\x00\x00\xff\xf0"), b"\xff\xfa\x14\x28\x29\x02\xff\xf0", b"WT 70 #4"),
    (Host(b"\xff\xfa\x14\xff\xff\xff\xf0"), b"\xff\xfa\x14\x28\xff\xff\x02\xff\xf0", b"WT 70 #4"),
    // FORMAT FACILITIES.
    (Host(b"\xff\xfa\x14\x04\x00\x00\xff\xf0"), b"\xff\xfa\x14\x04\x90\x79\xff\xf0", b"WT 70 #4"),
    (Key(128), b"\xff\xfa\x14\x27\x01\xff\xf0", b"WT 70 #4"),
    (Key(143), b"\xff\xfa\x14\x27\x10\xff\xf0", b"WT 70 #4"),
    (Key(13),
        b"\xff\xfa\x14\x1b\x03\x00\xff\xf070 \xff\xfa\x14\x26\xff\xf0mg ", b"WT 70 #4"),
];

#[test]
fn worked_forms() {
    for &(call, reply, line) in WORKED {
        let mut lent = june(3, 0);
        assert_eq!(lent.draws(call), reply, "{call:?}");
        assert_eq!(lent.chars[..8], line[..], "{call:?}");
        assert_eq!(lent.session().edition(), JUNE);
    }
    june(6, 0).refuses(6, Key('A' as u32));
}

const TRANSMIT_MODIFIED: u8 = 27;
const FORMAT_FACILITIES: u8 = 4;

/// September's, and June's.
const ERROR: u8 = 41;
const OWN_FORMAT_0: u8 = 144;

/// The code in June's edition of what has this one in September's.
fn in_june(code: u8) -> u8 {
    match code > TRANSMIT_MODIFIED {
        true => code - 1,
        false => code,
    }
}

/// What June's terminal sends where September's sends this.
fn reply_in_june(reply: &[u8]) -> Vec<u8> {
    let mut june = reply.to_vec();
    for place in 3..reply.len() {
        if reply[place - 3..place] != [255, 250, 20] {
            continue;
        }
        june[place] = in_june(reply[place]);
        match reply[place] {
            ERROR => june[place + 1] = in_june(reply[place + 1]),
            FORMAT_FACILITIES => june[place + 1] = OWN_FORMAT_0,
            _ => {}
        }
    }
    june
}

/// Form F with two marks, and with every facility agreed or with none.
fn starts() -> [Lent; 2] {
    let lent = form(3, 0).changed(|lent| lent.marks = marked(&[0, 13]));
    let none = |lent: &mut Lent| lent.session[at::MAPS..at::EDITION].fill(0);
    [lent.clone(), lent.changed(none)]
}

/// June's terminal has to do by one call what September's does by the other.
fn same(start: &Lent, call_in_june: Call, call: Call) {
    let (mut june, mut september) = (start.clone(), start.clone());
    june.session[at::EDITION] = 0;
    let (answer, expected) = (june.call(call_in_june), september.call(call));
    assert_eq!(answer, expected, "{call_in_june:?}");
    let reply = &mut september.reply[..expected.2];
    reply.copy_from_slice(&reply_in_june(reply));
    september.session[at::EDITION] = 0;
    assert_eq!(june, september, "{call_in_june:?}");
}

/// Parameters, of which a call is given none, some or all.
const PARAMETERS: [[u8; 5]; 5] = [
    [1, 1, 1, 1, 1],
    [8, 0, 0, 2, 1],
    [2, b'x', 1, 1, 1],
    [253, 1, 1, 1, 1],
    [126, 121, 1, 1, 1],
];

fn subcommand(code: u8, parameters: &[u8]) -> Vec<u8> {
    [&[255, 250, 20, code], parameters, &[255, 240]].concat()
}

#[test]
fn each_code_does_what_septembers_does() {
    for start in starts() {
        let codes = (0..=254).filter(|code| *code != TRANSMIT_MODIFIED);
        for (code, parameters) in codes.flat_map(|code| PARAMETERS.map(|list| (code, list))) {
            for count in 0..=parameters.len() {
                let parameters = &parameters[..count];
                let june = subcommand(in_june(code), parameters);
                same(&start, Host(&june), Host(&subcommand(code, parameters)));
            }
        }
    }
}

#[test]
fn each_key_does_what_septembers_does() {
    for start in starts() {
        for key in 0..=255 {
            same(&start, Key(key), Key(key));
        }
    }
}

/// Some of everything; its end is half read.
const STREAM: &[u8] = b"A\xff\xfa\x14\x10\xff\xf0B\xff\xfa\x14\x23\x08\x00\x00\x01\xff\xf0\
    \xff\xfa\x14\x1b\xff\xf0\xff\xfa\x14\x24\x02z\xff\xf0\xff\xfa\x14\x29\xff\xf0\
    \xff\xfa\x14\x15\xff\xf0\xff\xfa\x14\x25\xfd\xff\xf0\xff\xfa\x14\xff\xff\xff\xf0\
    \xff\xfa\x14\x1d\xff\xf0\xff\xfa\x14\x1c\x00\xff";

#[test]
fn a_stream_may_be_cut_anywhere() {
    let lent = june(3, 0).changed(|lent| lent.reply = vec![LENT; 1000]);
    let (after, replies) = cut_anywhere(&lent, STREAM);
    assert!(replies.starts_with(b"\xff\xfa\x14\x28\x1b\x02\xff\xf0"));
    assert!(replies.ends_with(b"\xff\xfa\x14\x28\xff\xff\x02\xff\xf0"));
    assert_eq!(after.session().held()[..2], [0x1c, 0]);
    assert_eq!(after.session().edition(), JUNE);
}
