//! What marks a cell, what clears marks, and TRANSMIT MODIFIED.

mod form;
mod lent;

use host::terminal::{at, reply_room, Cursor};

use form::{form, marked, F, P};
use lent::Call::{self, Host, Key};
use lent::{cut_anywhere, Lent, LENT};

const TOUCHED: Call = Host(b"\xff\xfa\x14\x1b\xff\xf0");

/// What a field is sent as: its start, then its characters.
fn field(x: u8, y: u8, text: &[u8]) -> Vec<u8> {
    [&[255, 250, 20, 28, x, y, 255, 240], text].concat()
}

fn cursor(lent: &Lent) -> [u8; 2] {
    let Cursor { x, y } = lent.session().cursor();
    [x, y]
}

#[test]
fn a_touched_field_is_sent_once() {
    let mut lent = form(5, 1);
    assert_eq!(lent.draws(Key('m'.into())), b"");
    assert_eq!((cursor(&lent), lent.marks.clone()), ([6, 1], marked(&[13])));
    assert_eq!(lent.draws(TOUCHED), field(5, 1, b"mg "));
    assert_eq!((cursor(&lent), lent.marks.clone()), ([3, 0], marked(&[])));
    assert_eq!(lent.draws(TOUCHED), b"");
    assert_eq!((cursor(&lent), lent.chars), ([3, 0], F.to_vec()));
}

#[test]
fn each_touched_field_has_its_start_before_it() {
    let mut lent = form(3, 0);
    lent.draws(Key(127));
    assert_eq!(lent.marks, marked(&[3, 4, 5]));
    (lent.session[at::X], lent.session[at::Y]) = (6, 1);
    lent.draws(Key('g'.into()));
    let both = [field(3, 0, b"0  "), field(5, 1, b"mg ")].concat();
    assert_eq!(lent.draws(TOUCHED), both);
}

/// A call on form F with the cursor at the weight, and the cells that it marks.
const MARKING: &[(Call, &[usize])] = &[
    (Key('7' as u32), &[3]),
    (Key(127), &[3, 4, 5]),
    (Host(b"\xff\xfa\x14\x0f\xff\xf0"), &[3, 4, 5]),
    (Host(b"\xff\xfa\x14\x10\xff\xf0"), &[3, 4, 5]),
    // A guarded cell on the line or below it: LINE INSERT and LINE DELETE do nothing.
    (Host(b"\xff\xfa\x14\x0d\xff\xf0"), &[]),
    (Host(b"\xff\xfa\x14\x0e\xff\xf0"), &[]),
    (Host(b"A"), &[]),
    (Host(b"\xff\xfa\x14\x25\x03x\xff\xf0"), &[]),
    (Host(b"\xff\xfa\x14\x1e\xff\xf0"), &[]),
    (Host(b"\xff\xfa\x14\x24\x00\x00\x00\x03\xff\xf0"), &[]),
    (Key(9), &[]),
    (Key(8), &[]),
];

#[test]
fn typing_and_shifts_mark_and_nothing_else_does() {
    for &(call, cells) in MARKING {
        let mut lent = form(3, 0);
        lent.draws(call);
        assert_eq!(lent.marks, marked(cells), "{call:?}");
    }
    for code in [13, 14] {
        let mut lent = form(3, 1);
        lent.attrs.fill(0);
        lent.draws(Host(&[255, 250, 20, code, 255, 240]));
        assert_eq!(lent.marks, marked(&[8, 9, 10, 11, 12, 13, 14, 15]));
    }
}

/// Whether a call clears all marks, or none.
const CLEARING: &[(Call, bool)] = &[
    (TOUCHED, true),
    (Host(b"\xff\xfa\x14\x1d\xff\xf0"), true),
    (Host(b"\xff\xfa\x14\x23\xff\xf0"), true),
    (Host(b"\xff\xfa\x14\x15\xff\xf0"), false),
    (Key(13), false),
    (Host(b"\xff\xfa\x14\x1e\xff\xf0"), false),
    (Host(b"\xff\xfa\x14\x20\xff\xf0"), false),
    (Host(b"\xff\xfa\x14\x24\x08\x00\x00\x03\xff\xf0"), false),
    (Host(b"\xff\xfe\x14"), false),
    // 27 with a parameter is no 27.
    (Host(b"\xff\xfa\x14\x1b\x00\xff\xf0"), false),
];

#[test]
fn marks_are_cleared_all_together() {
    for &(call, clears) in CLEARING {
        let mut lent = form(3, 0).changed(|lent| lent.marks.fill(1));
        lent.draws(call);
        assert_eq!(lent.marks, vec![u8::from(!clears); 16], "{call:?}");
    }
}

#[test]
fn a_stream_may_be_cut_anywhere() {
    let stream = b"A\xff\xfa\x14\x10\xff\xf0B\xff\xfa\x14\x1b\xff\xf0C\xff\xfa\x14\x0f\xff\xf0";
    let lent = form(3, 0).changed(|lent| lent.reply = vec![LENT; 1000]);
    let (after, replies) = cut_anywhere(&lent, stream);
    assert_eq!(replies, field(3, 0, b"AB "));
    assert_eq!(after.chars[..8], b"WT C B#4"[..]);
    assert_eq!(after.marks, marked(&[4, 5]));
}

#[test]
fn without_its_facility_it_is_no_command() {
    let mut lent = form(3, 0);
    lent.session[at::MAPS + 3] = 0xbf;
    lent.marks.fill(1);
    assert_eq!(lent.draws(TOUCHED), b"\xff\xfa\x14\x29\x1b\x01\xff\xf0");
    assert_eq!(lent.marks, vec![1; 16]);
}

#[test]
fn a_protected_field_is_not_sent() {
    let mut lent = form(3, 0);
    lent.attrs.fill(P);
    lent.marks.fill(1);
    for suppressed in [0, 1] {
        let mut lent = lent.clone();
        lent.session[at::SUPPRESSED] = suppressed;
        assert_eq!(lent.draws(TOUCHED), b"");
        assert_eq!((cursor(&lent), lent.marks), ([0, 0], vec![0; 16]));
    }
}

#[test]
fn the_longest_reply_fills_the_room() {
    let mut lent = form(3, 0);
    for (attr, bit) in lent.attrs.iter_mut().zip([0, 1].into_iter().cycle()) {
        *attr = bit;
    }
    lent.marks.fill(1);
    let mut short = lent.clone();
    short.reply.pop();
    short.refuses(5, TOUCHED);
    assert_eq!(lent.clone().draws(Key(13)).len(), 114);
    assert_eq!(lent.draws(TOUCHED).len(), reply_room(8, 2));
    assert_eq!(reply_room(8, 2), 144);
}

#[test]
fn bytes_are_counted_beyond_16_bits() {
    let mut lent = Lent::open(132, 64);
    lent.session[at::ON] = 1;
    lent.session[at::MAPS..at::EDITION].fill(255);
    for (attr, bit) in lent.attrs.iter_mut().zip([0, 1].into_iter().cycle()) {
        *attr = bit;
    }
    lent.marks.fill(1);
    assert_eq!(lent.draws(TOUCHED).len(), 9 * 132 * 64);
    assert!(lent.reply.iter().all(|byte| *byte == LENT));
    assert_eq!(lent.marks, vec![0; 132 * 64]);
}
