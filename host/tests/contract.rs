//! What the contracts of the three operations ask, run on the static library.

mod form;
mod lent;

use std::collections::BTreeSet;

use host::raw;
use host::refusal::Refusal;
use host::terminal::{self, at, reply_room, Counts, Cursor, Reader, Session};
use host::terminal::{JUNE, LINE_MOST, OWN_MAPS, OWN_MAPS_JUNE, SEPTEMBER};
use host::terminal::{SESSION_LENGTH, SESSION_VERSION};

use form::{form, marked, F, P};
use lent::Call::{self, Host, Key};
use lent::{cut_anywhere, fresh, Lent, LENT};

/// Option 30 on, the edit line full, the cursor on a guarded cell, the least
/// reply room.
fn full_line() -> Lent {
    let mut lent = Lent::open(37, 1);
    lent.session[at::PAD_ON] = 1;
    lent.session[at::LINE_LENGTH] = LINE_MOST as u8;
    lent.session[at::LINE..at::STAGE].fill(b'A');
    lent.attrs.fill(P);
    lent
}

/// The parameters of option 30, each with the most that it takes.
const MOST: [u8; 28] = [
    1, 126, 1, 127, 0, 1, 0, 31, 1, 7, 255, 18, 1, 7, 7, 1, 127, 127, 127, 126, 255, 3, 255, 255,
    127, 127, 127, 1,
];

type Change = fn(&mut Lent);
type Row = (u8, Change);

/// What makes host bytes and keys alike refused.
const REFUSALS: &[Row] = &[
    (255, |lent| lent.session.clear()),
    (255, |lent| lent.session.truncate(SESSION_LENGTH - 1)),
    (255, |lent| lent.session.push(0)),
    // The layouts before this one.
    (255, |lent| {
        lent.session = vec![8, 2, 3, 0, 1, 0, 0, 0, 0, 0, 0, 0, 0, 0, 0]
    }),
    (255, |lent| {
        lent.session.truncate(206);
        lent.session[at::VERSION] = 2;
    }),
    (255, |lent| {
        lent.session.truncate(211);
        lent.session[at::VERSION] = 3;
    }),
    (255, |lent| lent.session[at::VERSION] = 0),
    (255, |lent| lent.session[at::VERSION] = SESSION_VERSION - 1),
    (255, |lent| lent.session[at::VERSION] = SESSION_VERSION + 1),
    (255, |lent| lent.session[at::ON] = 2),
    (255, |lent| lent.session[at::PAD_ON] = 2),
    (255, |lent| lent.session[at::SUPPRESSED] = 2),
    (255, |lent| lent.session[at::CR] = 2),
    (255, |lent| lent.session[at::EDITION] = 2),
    (255, |lent| lent.session[at::READER] = 10),
    (255, |lent| lent.session[at::OPTION] = 1),
    (255, |lent| {
        (lent.session[at::READER], lent.session[at::OPTION]) = (7, 20)
    }),
    (255, |lent| lent.session[at::STAGE] = 3),
    (255, |lent| lent.session[at::CODE] = 1),
    (255, |lent| lent.session[at::WAITING] = 1),
    (255, |lent| {
        (lent.session[at::STAGE], lent.session[at::WAITING]) = (1, 1)
    }),
    (1, |lent| lent.session[at::WIDTH] = 0),
    (1, |lent| lent.session[at::WIDTH] = 133),
    (1, |lent| lent.session[at::HEIGHT] = 0),
    (1, |lent| lent.session[at::HEIGHT] = 65),
    (2, |lent| lent.chars.truncate(15)),
    (2, |lent| lent.chars.push(b' ')),
    (2, |lent| lent.attrs.truncate(15)),
    (2, |lent| lent.attrs.push(0)),
    (2, |lent| lent.marks.truncate(15)),
    (2, |lent| lent.marks.push(0)),
    (3, |lent| lent.chars[0] = 31),
    (3, |lent| lent.chars[15] = 127),
    (4, |lent| lent.session[at::X] = 8),
    (4, |lent| lent.session[at::Y] = 2),
    (4, |lent| lent.session[at::HELD_COUNT] = 7),
    (4, |lent| lent.session[at::PAD_ON] = 1),
    (4, |lent| lent.session[at::LINE_LENGTH] = 129),
    (4, |lent| {
        lent.session[at::LINE_LENGTH] = 2;
        lent.session[at::LINE + 1] = 128;
    }),
    (4, |lent| lent.session[at::PARAMETERS + 4] = 1),
    (4, |lent| lent.session[at::COPY + 27] = 2),
    (11, |lent| lent.marks[0] = 2),
    (11, |lent| lent.marks[15] = 255),
    (5, |lent| lent.reply.truncate(143)),
    (5, |lent| lent.reply.clear()),
];

/// Neighbours in the order of refusals, both given.
const ORDER: &[Row] = &[
    (255, |lent| {
        (lent.session[at::ON], lent.session[at::WIDTH]) = (2, 0)
    }),
    (1, |lent| {
        lent.session[at::WIDTH] = 0;
        lent.chars.clear();
    }),
    (2, |lent| {
        lent.attrs.clear();
        lent.chars[0] = 0;
    }),
    (3, |lent| (lent.chars[0], lent.session[at::X]) = (0, 8)),
    (4, |lent| (lent.session[at::X], lent.marks[0]) = (8, 2)),
    (11, |lent| {
        lent.marks[0] = 2;
        lent.reply.clear();
    }),
];

/// What makes these keys refused.
const KEYS: &[(u8, Change, &[u32])] = &[
    (
        5,
        |lent| {
            lent.session[at::ON] = 0;
            lent.session[at::X] = 6;
            lent.reply.clear();
        },
        &[0, 13, 'A' as u32],
    ),
    (9, |_| {}, &[0, 7, 10, 12, 14, 31, 144, 255]),
    (9, |_| {}, &[256, 256 + 'A' as u32, 0x1_000d, u32::MAX]),
    (9, |lent| lent.session[at::ON] = 0, &[144]),
    (8, |lent| lent.session[at::ON] = 0, &[13, 128, 143]),
    (
        6,
        |lent| lent.session[at::X] = 6,
        &['A' as u32, ' ' as u32, 127],
    ),
    (7, |lent| lent.attrs[3] = 0x18, &['A' as u32, ',' as u32]),
    (7, |lent| lent.attrs[3] = 0x10, &['7' as u32, '@' as u32]),
    (10, |lent| *lent = full_line(), &[0, 8, 13, 'A' as u32, 127]),
    (9, |lent| *lent = full_line(), &[144, 255, 256]),
    (8, |lent| *lent = full_line(), &[128, 143]),
    (
        5,
        |lent| {
            *lent = full_line();
            lent.reply.pop();
        },
        &[13, 'A' as u32],
    ),
];

#[test]
fn every_refusal_leaves_all_as_it_came() {
    let mut seen = BTreeSet::new();
    for &(number, change) in REFUSALS.iter().chain(ORDER) {
        for call in [Host(b""), Host(b"A"), Key('A' as u32), Key(0)] {
            form(3, 0).changed(change).refuses(number, call);
        }
        seen.insert(number);
    }
    for &(number, change, keys) in KEYS {
        for &key in keys {
            form(3, 0).changed(change).refuses(number, Key(key));
        }
        seen.insert(number);
    }
    // All but 12, which is open's alone.
    assert!(seen.into_iter().eq((1..=11).chain([255])));
}

/// The outermost that is not refused.
const TAKEN: &[Change] = &[
    |_| {},
    |lent| lent.chars[0] = 32,
    |lent| lent.chars[15] = 126,
    |lent| (lent.session[at::X], lent.session[at::Y]) = (7, 1),
    |lent| lent.session[at::HELD_COUNT] = 6,
    |lent| {
        lent.session[at::LINE_LENGTH] = 128;
        lent.session[at::LINE..at::STAGE].fill(127);
    },
    |lent| {
        lent.session[at::LINE_LENGTH] = 127;
        lent.session[at::STAGE - 1] = 255;
    },
    |lent| lent.session[at::PARAMETERS..at::LINE_LENGTH].copy_from_slice(&MOST),
    |lent| lent.session[at::COPY..at::MAPS].copy_from_slice(&MOST),
    |lent| lent.session[at::MAPS..at::EDITION].fill(0),
    |lent| lent.session[at::EDITION] = 0,
    |lent| lent.reply.push(LENT),
    |lent| lent.session[at::ON] = 0,
    |lent| lent.attrs.fill(255),
    |lent| lent.marks.fill(1),
];

#[test]
fn what_is_not_refused_is_done() {
    for &change in TAKEN {
        let lent = form(3, 0).changed(change);
        assert_eq!(lent.clone().call(Host(b"")), (0, 0, 0), "{lent:?}");
        assert_eq!(lent.clone().call(Host(b"A")), (0, 1, 0), "{lent:?}");
        assert_eq!(lent.clone().call(Key(9)), (0, 1, 0), "{lent:?}");
    }
}

const S: usize = SESSION_LENGTH;

/// The answer; width, height and edition; the lengths of characters,
/// attributes, marks and the place for the session.
const OPENS: &[(u8, [usize; 3], [usize; 4])] = &[
    (0, [8, 2, 732], [16, 16, 16, S]),
    (0, [8, 2, 731], [16, 16, 16, S]),
    (0, [1, 1, 732], [1, 1, 1, S]),
    (0, [132, 64, 732], [8448, 8448, 8448, S]),
    (1, [133, 64, 732], [8512, 8512, 8512, S]),
    (1, [132, 65, 732], [8580, 8580, 8580, S]),
    (1, [0, 2, 732], [0, 0, 0, S]),
    (1, [8, 0, 732], [0, 0, 0, S]),
    (1, [0, 0, 732], [1, 1, 1, S]),
    (1, [256 + 8, 2, 732], [16, 16, 16, S]),
    (1, [8, (1 << 32) + 2, 732], [16, 16, 16, S]),
    (1, [usize::MAX, usize::MAX, 732], [1, 1, 1, S]),
    (1, [0, 2, 731], [0, 0, 0, S]),
    (1, [0, 2, 733], [0, 0, 0, S]),
    (12, [8, 2, 730], [16, 16, 16, S]),
    (12, [8, 2, 733], [16, 16, 16, S]),
    (12, [8, 2, 0], [16, 16, 16, S]),
    (12, [8, 2, 1], [16, 16, 16, S]),
    (12, [8, 2, (1 << 16) + 731], [16, 16, 16, S]),
    (12, [8, 2, (1 << 32) + 732], [16, 16, 16, S]),
    (12, [8, 2, usize::MAX], [16, 16, 16, S]),
    (12, [8, 2, 733], [15, 16, 16, S]),
    (2, [8, 2, 732], [15, 16, 16, S]),
    (2, [8, 2, 731], [16, 15, 16, S]),
    (2, [8, 2, 732], [17, 16, 16, S]),
    (2, [8, 2, 732], [16, 15, 16, S]),
    (2, [8, 2, 732], [16, 17, 16, S]),
    (2, [8, 2, 732], [16, 16, 15, S]),
    (2, [8, 2, 732], [16, 16, 17, S]),
    (2, [8, 2, 732], [16, 16, 0, S]),
    (2, [8, 2, 732], [0, 0, 0, S]),
    (255, [8, 2, 732], [16, 16, 16, S - 1]),
    (255, [8, 2, 732], [16, 16, 16, S + 1]),
    (255, [8, 2, 733], [16, 16, 16, S - 1]),
    (255, [8, 2, 732], [16, 16, 16, 206]),
    (255, [8, 2, 732], [16, 16, 16, 15]),
    (255, [0, 0, 732], [1, 1, 1, 0]),
];

#[test]
fn open_done_and_refused() {
    for &(number, [width, height, edition], [c, a, m, s]) in OPENS {
        // What stands in the buffers counts for nothing.
        let (mut chars, mut attrs, mut marks) = (vec![200; c], vec![0x11; a], vec![2; m]);
        let mut session = vec![LENT; s];
        let answer = raw::open(
            width,
            height,
            edition,
            &mut chars,
            &mut attrs,
            &mut marks,
            &mut session,
        );
        let ([char, attr, mark], fresh) = match number {
            0 => ([b' ', 0, 0], fresh(width as u8, height as u8, edition)),
            255 => ([200, 0x11, 2], vec![LENT; s]),
            _ => ([200, 0x11, 2], fresh(0, 0, SEPTEMBER)),
        };
        let case = format!("open {width} {height} {edition} with {c}, {a}, {m} and {s}");
        assert_eq!((answer, session), (number, fresh), "{case}");
        assert_eq!((chars, attrs), (vec![char; c], vec![attr; a]), "{case}");
        assert_eq!(marks, vec![mark; m], "{case}");
    }
}

#[test]
fn a_refused_open_leaves_a_session_that_is_refused() {
    let (mut chars, mut attrs, mut marks, mut reply) = ([0; 2], [0; 2], [0; 2], [0; 99]);
    let refused = terminal::open(2, 0, JUNE, &mut chars, &mut attrs, &mut marks);
    assert_eq!(refused, Err((Refusal::Size, Session::default())));
    let mut session = Session::default();
    assert_eq!(session.as_bytes()[..], fresh(0, 0, SEPTEMBER));
    let host = session.host_bytes(b"A", &mut chars, &mut attrs, &mut marks, &mut reply);
    let key = session.key(9, &mut chars, &attrs, &mut marks, &mut reply);
    assert_eq!((host, key), (Err(Refusal::Size), Err(Refusal::Size)));
    let refused = terminal::open(2, 1, JUNE, &mut chars, &mut attrs, &mut marks[..1]);
    assert_eq!(refused, Err((Refusal::Length, Session::default())));
    let refused = terminal::open(2, 1, 733, &mut chars, &mut attrs, &mut marks);
    assert_eq!(refused, Err((Refusal::Edition, Session::default())));
}

/// A name, the cursor, the call; then the screen, the cursor and the reply.
type Worked = (
    &'static str,
    [u8; 2],
    Call<'static>,
    &'static [u8; 16],
    [u8; 2],
    &'static [u8],
);

const SENT: &[u8] = b"\xff\xfa\x14\x1c\x03\x00\xff\xf070 \xff\xfa\x14\x27\xff\xf0mg ";

#[rustfmt::skip]
const WORKED: &[Worked] = &[
    ("P1", [3, 0], Host(b"\xff\xfa\x14\x10\xff\xf0"), b"WT 0  #4UNIT mg ", [3, 0], b""),
    ("P2", [3, 0], Host(b"\xff\xfa\x14\x0f\xff\xf0"), b"WT  70#4UNIT mg ", [3, 0], b""),
    ("P3", [3, 0], Host(b"\xff\xfa\x14\x15\xff\xf0"), F, [3, 0], SENT),
    ("P4", [3, 0], Host(b"\xff\xfa\x14\x05\x09\x01\xff\xf0"), F, [7, 1],
        b"\xff\xfa\x14\x29\x05\x03\xff\xf0"),
    ("P4", [3, 0], Host(b"\xff\xfa\x14\x05\x07\x01\xff\xf0"), F, [7, 1], b""),
    ("P5", [6, 0], Host(b"A"), F, [6, 0], b""),
    ("P6, a key", [5, 0], Key('8' as u32), b"WT 708#4UNIT mg ", [5, 1], b""),
    ("P6", [5, 0], Host(b"8"), b"WT 708#4UNIT mg ", [6, 0], b""),
    ("P7", [4, 0], Host(b"\xff\xfa\x14\x25\x03x\xff\xf0"), b"WT 7xx#4UNIT mg ", [6, 0], b""),
    ("P8", [6, 1], Host(b"\xff\xfa\x14\x13\xff\xf0"), F, [5, 1], b""),
    ("P8", [5, 1], Host(b"\xff\xfa\x14\x13\xff\xf0"), F, [3, 0], b""),
    ("P8", [3, 0], Host(b"\xff\xfa\x14\x13\xff\xf0"), F, [0, 0], b""),
    ("P9", [3, 0], Host(b"\xff\xfa\x14\xff\xf0"), F, [3, 0], b"\xff\xfa\x14\x29\x00\x0a\xff\xf0"),
    ("P10", [3, 0], Host(b"\xff\xfa\x14\xff\xff\xff\xf0"), F, [3, 0],
        b"\xff\xfa\x14\x29\xff\xff\x02\xff\xf0"),
    ("DO 3", [3, 0], Host(b"\xff\xfd\x03"), F, [3, 0], b"\xff\xfc\x03"),
    ("delete", [3, 0], Key(127), b"WT 0  #4UNIT mg ", [3, 0], b""),
    ("send", [6, 1], Key(13), F, [3, 0], SENT),
    ("tab", [3, 0], Key(9), F, [5, 1], b""),
    ("back", [5, 1], Key(8), F, [5, 0], b""),
    ("function 1", [0, 0], Key(128), F, [0, 0], b"\xff\xfa\x14\x28\x01\xff\xf0"),
    ("function 16", [0, 0], Key(143), F, [0, 0], b"\xff\xfa\x14\x28\x10\xff\xf0"),
];

#[test]
fn worked_forms() {
    for &(name, [x, y], call, screen, cursor, reply) in WORKED {
        let mut lent = form(x, y);
        let taken = match call {
            Host(input) => input.len(),
            Key(_) => 1,
        };
        assert_eq!(lent.call(call), (0, taken, reply.len()), "{name}");
        let mut after = form(cursor[0], cursor[1]);
        after.chars.copy_from_slice(screen);
        after.marks = marked(match name {
            "P1" | "P2" | "delete" => &[3, 4, 5],
            "P6, a key" => &[5],
            _ => &[],
        });
        after.reply[..reply.len()].copy_from_slice(reply);
        assert_eq!(lent, after, "{name}");
    }
    form(6, 0).refuses(6, Key('A' as u32));
}

/// What the host sends to form F with nothing agreed and the cursor at the
/// weight; what it draws, and the first line then.
type Agreeing = (&'static [u8], &'static [u8], &'static [u8; 8]);

#[rustfmt::skip]
const AGREEING: &[Agreeing] = &[
    (b"\xff\xfa\x14\x10\xff\xf0", b"\xff\xfa\x14\x29\x10\x01\xff\xf0", b"WT 70 #4"),
    (b"\xff\xfa\x14\x10\x00\xff\xf0", b"\xff\xfa\x14\x29\x10\x01\xff\xf0", b"WT 70 #4"),
    (b"\xff\xfa\x14\x26\xfd\xff\xf0", b"\xff\xfa\x14\x29\x26\x01\xff\xf0", b"WT 70 #4"),
    // A code that there is not.
    (b"\xff\xfa\x14\x12\xff\xf0", b"\xff\xfa\x14\x29\x12\x02\xff\xf0", b"WT 70 #4"),
    // Commands that need no bit.
    (b"\xff\xfa\x14\x05\x03\x00\xff\xf0", b"", b"WT 70 #4"),
    (b"\xff\xfa\x14\x0c\xff\xf0", b"", b"WT 70 #4"),
    (b"\xff\xfa\x14\x1d\xff\xf0", b"", b"        "),
    // One bit is agreed, and no other.
    (b"\xff\xfa\x14\x01\x04\xff\xf0\xff\xfa\x14\x10\xff\xf0", b"\xff\xfa\x14\x01\x7e\xff\xf0",
        b"WT 0  #4"),
    (b"\xff\xfa\x14\x01\x04\xff\xf0\xff\xfa\x14\x11\xff\xf0",
        b"\xff\xfa\x14\x01\x7e\xff\xf0\xff\xfa\x14\x29\x11\x01\xff\xf0", b"WT 70 #4"),
    (b"\xff\xfa\x14\x01\x10\xff\xf0\xff\xfa\x14\x11\xff\xf0",
        b"\xff\xfa\x14\x01\x7e\xff\xf0\xff\xfa\x14\x12\x03\x00\xff\xf0", b"WT 70 #4"),
    // The latest map counts alone.
    (b"\xff\xfa\x14\x01\x04\xff\xf0\xff\xfa\x14\x01\x10\xff\xf0\xff\xfa\x14\x10\xff\xf0",
        b"\xff\xfa\x14\x01\x7e\xff\xf0\xff\xfa\x14\x01\x7e\xff\xf0\xff\xfa\x14\x29\x10\x01\xff\xf0",
        b"WT 70 #4"),
    // A facility command that draws an ERROR does not count.
    (b"\xff\xfa\x14\x01\x04\xff\xf0\xff\xfa\x14\x01\xff\xf0\xff\xfa\x14\x10\xff\xf0",
        b"\xff\xfa\x14\x01\x7e\xff\xf0\xff\xfa\x14\x29\x01\x0a\xff\xf0", b"WT 0  #4"),
    // The option off and on again.
    (b"\xff\xfa\x14\x01\x10\xff\xf0\xff\xfe\x14\xff\xfd\x14\xff\xfa\x14\x11\xff\xf0",
        b"\xff\xfa\x14\x01\x7e\xff\xf0\xff\xfc\x14\xff\xfb\x14\xff\xfa\x14\x29\x11\x01\xff\xf0",
        b"WT 70 #4"),
];

#[test]
fn facilities_are_agreed_first() {
    let mut lent = form(3, 0);
    lent.session[at::MAPS..at::EDITION].fill(0);
    lent.reply = vec![LENT; 1000];
    for &(input, expected, line) in AGREEING {
        let (after, replies) = cut_anywhere(&lent, input);
        assert_eq!(replies, expected, "{input:x?}");
        assert_eq!(after.chars[..8], line[..], "{input:x?}");
    }
    assert_eq!(lent.draws(Key(127)), b"");
    assert_eq!(lent.chars[..8], b"WT 0  #4"[..]);
}

#[test]
fn what_show_prints() {
    let (mut chars, mut attrs, mut marks) = ([0; 16], [1; 16], [1; 16]);
    let session = terminal::open(8, 2, SEPTEMBER, &mut chars, &mut attrs, &mut marks);
    let mut session = session.expect("a size");
    let mut reply = [0; reply_room(8, 2)];
    let counts = session.host_bytes(b"HI", &mut chars, &mut attrs, &mut marks, &mut reply);
    let expected = Counts {
        taken: 2,
        written: 0,
    };
    assert_eq!(counts, Ok(expected));
    assert_eq!(session.cursor(), Cursor { x: 2, y: 0 });
    assert_eq!((&chars, attrs), (b"HI              ", [0; 16]));
    assert_eq!(marks, [0; 16]);
}

/// Reply room and input; how many bytes are taken and written.
const TAKING: &[(usize, &[u8], usize, usize)] = &[
    (144, b"", 0, 0),
    (144, b"\xff\xfd\x03", 3, 3),
    (144, b"\xff\xfd\x03\xff\xfd\x03", 3, 3),
    (146, b"\xff\xfd\x03\xff\xfd\x03", 3, 3),
    (147, b"\xff\xfd\x03\xff\xfd\x03", 6, 6),
    (147, b"\xff\xfd\x03\xff\xfd\x03A", 6, 6),
    (144, b"A\xff\xfd\x03A", 4, 3),
    (150, b"\xff\xfd\x03\xff\xfd\x03A", 7, 6),
];

#[test]
fn bytes_are_taken_while_there_is_room() {
    for &(room, input, taken, written) in TAKING {
        let mut lent = form(3, 0);
        lent.reply = vec![LENT; room];
        let answer = lent.call(Host(input));
        assert_eq!(answer, (0, taken, written), "{input:x?} with {room}");
        let replies = b"\xff\xfc\x03".repeat(written / 3);
        assert_eq!(lent.reply[..written], replies);
        assert_eq!(lent.reply[written..], vec![LENT; room - written]);
    }
}

/// Some of everything; its end is half read.
const STREAM: &[u8] =
    b"\xff\xfd\x14AB\r\n\x08C\xff\xff\xff\xfb\x14\xff\xfa\x14\x05\x03\x00\xff\xf0\
    \xff\xfa\x14\x24\x08\x00\x00\x05\xff\xf0\xff\xfa\x14\x0a\xff\xf0zz\xff\xfa\x14\xff\xff\xff\xf0\
    \xff\xfa\xff\xff\x01\xff\xf0\xff\xfa\x14\x15\xff\xfd\x07\xff\xfa\x14\x15\xff\xf0\
    \xff\xfa\x14\x26\xfd\xff\xf0\xff\xfa\x14\x01\x02\x03\x04\x05\x06\x07\xff";

#[test]
fn a_stream_may_be_cut_anywhere() {
    let mut lent = form(3, 0);
    lent.session[at::ON] = 0;
    lent.attrs.fill(0);
    lent.reply = vec![LENT; 1000];
    let (after, _) = cut_anywhere(&lent, STREAM);
    let frame_and_reader = [1, 0, 1, 9, 20, 6, 1, 2, 3, 4, 5, 6, 0];
    assert_eq!(after.session[at::ON..at::PARAMETERS], frame_and_reader);
}

/// Maps received, no two alike.
const MAPS: [u8; 5] = [0x5a, 0xe1, 0x94, 0xfe, 0x87];

/// A session of which no part is 0 where it can be something else: `reader`
/// is where the reader stands, `stage` where a message does.
fn whole(reader: u8, stage: u8) -> [u8; SESSION_LENGTH] {
    let mut bytes = [0; SESSION_LENGTH];
    let option = if reader < 8 { 0 } else { 30 };
    bytes[at::VERSION] = SESSION_VERSION;
    bytes[at::WIDTH..at::HELD].copy_from_slice(&[37, 2, 36, 1, 1, 1, 1, reader, option, 6]);
    bytes[at::HELD..at::PARAMETERS].copy_from_slice(&[9, 8, 255, 1, 5, 4, 1]);
    bytes[at::PARAMETERS..at::LINE_LENGTH].copy_from_slice(&MOST);
    bytes[at::LINE_LENGTH] = 100;
    for (byte, place) in (1..).zip(at::LINE..at::STAGE) {
        bytes[place] = byte;
    }
    let (code, waiting) = [(0, 0), (7, 0), (7, 200)][usize::from(stage)];
    bytes[at::STAGE..at::COPY].copy_from_slice(&[stage, code, waiting]);
    bytes[at::COPY..at::MAPS].copy_from_slice(&MOST);
    bytes[at::MAPS..at::EDITION].copy_from_slice(&MAPS);
    bytes[at::EDITION] = 1;
    bytes
}

/// The places of what is 0 or 1.
const FLAGS: [usize; 5] = [at::ON, at::PAD_ON, at::SUPPRESSED, at::CR, at::EDITION];

fn is_session(bytes: &[u8; SESSION_LENGTH]) -> bool {
    let reader = match bytes[at::READER] {
        0..=7 => bytes[at::OPTION] == 0,
        8 | 9 => true,
        _ => false,
    };
    let message = [bytes[at::STAGE], bytes[at::CODE], bytes[at::WAITING]];
    let message = matches!(message, [0, 0, 0] | [1, _, 0] | [2, _, _]);
    let version = bytes[at::VERSION] == SESSION_VERSION;
    version && FLAGS.iter().all(|flag| bytes[*flag] <= 1) && reader && message
}

#[test]
fn the_bytes_of_a_session() {
    for (reader, stage) in (0..=9).flat_map(|reader| [0, 1, 2].map(|stage| (reader, stage))) {
        for place in 0..SESSION_LENGTH {
            for byte in 0..=255 {
                let mut bytes = whole(reader, stage);
                bytes[place] = byte;
                let session = Session::from_bytes(bytes);
                let kept = session.as_ref().map(Session::as_bytes);
                assert_eq!(kept, is_session(&bytes).then_some(&bytes), "{bytes:?}");
            }
        }
    }
}

#[test]
fn a_session_is_read_and_written_as_the_same_bytes() {
    for (reader, stage) in (0..=9).flat_map(|reader| [0, 1, 2].map(|stage| (reader, stage))) {
        for flags in 0..32 {
            for count in 0..=6 {
                let mut lent = Lent::open(37, 2);
                lent.session = whole(reader, stage).to_vec();
                for (bit, flag) in FLAGS.iter().enumerate() {
                    lent.session[*flag] = flags >> bit & 1;
                }
                lent.session[at::HELD_COUNT] = count;
                let before = lent.clone();
                assert_eq!(lent.call(Host(b"")), (0, 0, 0));
                assert_eq!(lent, before);
            }
        }
    }
}

#[test]
fn the_parts_of_a_session() {
    let mut bytes = whole(8, 2);
    bytes[at::WIDTH..at::ON].copy_from_slice(&[132, 64, 131, 63]);
    (bytes[at::SUPPRESSED], bytes[at::HELD_COUNT]) = (0, 3);
    let session = Session::from_bytes(bytes).expect("a session");
    assert_eq!((session.width(), session.height()), (132, 64));
    assert_eq!(session.cursor(), Cursor { x: 131, y: 63 });
    assert_eq!((session.is_on(), session.is_suppressed()), (true, false));
    assert_eq!(session.reader(), Reader::Sub(30));
    assert_eq!(session.held(), [9, 8, 255, 1, 5, 4]);
    assert_eq!(session.held_count(), 3);
    assert!(session.is_pad_on());
    assert!(session.line().iter().copied().eq(1..=100));
    assert_eq!(session.parameters(), MOST);
    assert_eq!(session.received_maps(), MAPS);
    assert_eq!(session.agreed_maps(), [0x5a, 0x01, 0x14, 0xd0, 0x01]);
    bytes[at::MAPS..at::EDITION].fill(255);
    for (byte, edition, own) in [(0, JUNE, OWN_MAPS_JUNE), (1, SEPTEMBER, OWN_MAPS)] {
        bytes[at::EDITION] = byte;
        let session = Session::from_bytes(bytes).expect("a session");
        assert_eq!((session.edition(), session.agreed_maps()), (edition, own));
    }
}

#[test]
fn a_line_that_is_too_long() {
    let mut bytes = whole(0, 0);
    bytes[at::LINE_LENGTH] = 255;
    let session = Session::from_bytes(bytes).expect("a session");
    assert!(session.line().iter().copied().eq(1..=128));
}

/// What the host sends, and where the reader stands then.
const READERS: &[(&[u8], Reader)] = &[
    (b"A", Reader::Data),
    (b"\xff", Reader::Iac),
    (b"\xff\xfb", Reader::Will),
    (b"\xff\xfc", Reader::Wont),
    (b"\xff\xfd", Reader::Do),
    (b"\xff\xfe", Reader::Dont),
    (b"\xff\xfa", Reader::Sb),
    (b"\xff\xfa\xff", Reader::SbIac),
    (b"\xff\xfa\x18", Reader::Sub(24)),
    (b"\xff\xfa\x18\xff", Reader::SubIac(24)),
];

#[test]
fn where_the_reader_stands() {
    for &(input, reader) in READERS {
        let (mut chars, mut attrs, mut marks) = ([0; 1], [0; 1], [0; 1]);
        let session = terminal::open(1, 1, SEPTEMBER, &mut chars, &mut attrs, &mut marks);
        let mut session = session.expect("a size");
        let mut reply = [0; reply_room(1, 1)];
        let counts = session.host_bytes(input, &mut chars, &mut attrs, &mut marks, &mut reply);
        assert_eq!(counts.map(|counts| counts.taken), Ok(input.len()));
        assert_eq!(session.reader(), reader, "{input:x?}");
    }
}

#[test]
fn refusals_have_their_numbers() {
    for number in 0..=255 {
        let refusal = Refusal::of_number(number);
        let expected = (1..=12).contains(&number).then_some(number);
        assert_eq!(refusal.map(Refusal::number), expected);
    }
    let said = Refusal::Guarded.to_string();
    assert_eq!(said, "refusal 6: the cell is guarded");
}
