//! Option 30 through the static library.

mod lent;

use std::ops::RangeInclusive;

use host::terminal::{at, Cursor, Reader, LINE_MOST, PAD_CELLS};

use lent::Call::{Host, Key};
use lent::{cut_anywhere, Lent, LENT};

const DO_20: &[u8] = b"\xff\xfd\x14";
const DONT_20: &[u8] = b"\xff\xfe\x14";
const DO_30: &[u8] = b"\xff\xfd\x1e";
const DONT_30: &[u8] = b"\xff\xfe\x1e";
const WILL_30: &[u8] = b"\xff\xfb\x1e";
const WONT_30: &[u8] = b"\xff\xfc\x1e";
const SEND: &[u8] = b"\xff\xfa\x1e\x04\xff\xf0";

const CR: u32 = 13;

/// A screen with option 30 on.
fn pad(width: u8, height: u8) -> Lent {
    Lent::open(width, height).changed(|lent| lent.session[at::PAD_ON] = 1)
}

/// SET with these pairs.
fn set(pairs: &[u8]) -> Vec<u8> {
    let mut bytes = b"\xff\xfa\x1e\x00".to_vec();
    for byte in pairs {
        bytes.push(*byte);
        if *byte == 255 {
            bytes.push(255);
        }
    }
    bytes.extend(b"\xff\xf0");
    bytes
}

fn pad_with(width: u8, height: u8, pairs: &[u8]) -> Lent {
    let mut lent = pad(width, height);
    assert_eq!(lent.draws(Host(&set(pairs))), b"");
    lent
}

/// Width and height: the last that are too small, the first that are not.
const SIZES: &[(u8, u8)] = &[
    (1, 1),
    (36, 1),
    (37, 1),
    (1, 36),
    (1, 37),
    (6, 6),
    (19, 2),
    (132, 64),
];

#[test]
fn option_30_is_accepted_from_37_cells_up() {
    for &(width, height) in SIZES {
        let mut lent = Lent::open(width, height);
        let replies = [DO_30, DO_30, DONT_30, DONT_30].map(|bytes| lent.draws(Host(bytes)));
        let expected = match lent.chars.len() < PAD_CELLS {
            true => [WONT_30, WONT_30, b"", b""],
            false => [WILL_30, b"", WONT_30, b""],
        };
        assert_eq!(replies, expected, "{width} by {height}");
        assert!(!lent.session().is_pad_on());
    }
}

#[test]
fn with_fewer_cells_a_session_that_has_it_on_is_refused() {
    for &(width, height) in SIZES {
        let lent = pad(width, height);
        for call in [Host(b""), Host(DONT_30), Key(CR), Key(200)] {
            match lent.chars.len() < PAD_CELLS {
                true => lent.clone().refuses(4, call),
                false => assert_ne!(lent.clone().call(call).0, 4, "{width} by {height}"),
            }
        }
    }
}

/// Each parameter, and the values that it takes.
const PARAMETERS: &[(u8, &[RangeInclusive<u8>])] = &[
    (0, &[0..=1]),
    (1, &[0..=1, 32..=126]),
    (2, &[0..=1]),
    (3, &[0..=127]),
    (4, &[0..=0]),
    (5, &[0..=1]),
    (6, &[0..=0]),
    (7, &[0..=31]),
    (8, &[0..=1]),
    (9, &[0..=7]),
    (10, &[0..=255]),
    (11, &[0..=18]),
    (12, &[0..=1]),
    (13, &[0..=7]),
    (14, &[0..=7]),
    (15, &[0..=1]),
    (16, &[0..=127]),
    (17, &[0..=127]),
    (18, &[0..=127]),
    (19, &[0..=2, 8..=8, 32..=126]),
    (20, &[0..=255]),
    (21, &[0..=3]),
    (22, &[0..=255]),
    (128, &[0..=1, 255..=255]),
    (129, &[0..=127]),
    (130, &[0..=127]),
    (131, &[0..=127]),
    (132, &[0..=1]),
];

#[test]
fn a_value_that_a_parameter_does_not_take() {
    for (place, (number, values)) in PARAMETERS.iter().enumerate() {
        for value in 0..=255 {
            let takes = values.iter().any(|values| values.contains(&value));
            for values in [at::PARAMETERS, at::COPY] {
                let mut lent = Lent::open(1, 1);
                lent.session[values + place] = value;
                let expected = if takes { 0 } else { 4 };
                assert_eq!(lent.call(Host(b"")).0, expected, "{number} is {value}");
            }
            let mut lent = pad_with(37, 1, &[128, 1]);
            let before = lent.session().parameter(*number);
            lent.draws(Host(&set(&[*number, value])));
            let expected = if takes { Some(value) } else { before };
            assert_eq!(lent.session().parameter(*number), expected, "{number}");
        }
    }
}

/// Pairs that are set, each list by a message of its own; what SEND draws then.
const TOLD: &[(&[&[u8]], &[u8])] = &[
    (
        &[],
        b"\xff\xfa\x1e\x03\0\0\x01\0\x02\0\x03\0\x04\0\x05\0\x06\0\x07\0\x08\0\x09\0\x0a\0\x0b\0\
        \x0c\0\x0d\0\x0e\0\x0f\0\x10\0\x11\0\x12\0\x13\0\x14\0\x15\0\x16\0\x80\0\xff\xf0",
    ),
    (
        &[&[129, 23, 128, 1, 129, 23]],
        b"\xff\xfa\x1e\x03\0\0\x01\0\x02\0\x03\0\x04\0\x05\0\x06\0\x07\0\x08\0\x09\0\x0a\0\x0b\0\
        \x0c\0\x0d\0\x0e\0\x0f\0\x10\0\x11\0\x12\0\x13\0\x14\0\x15\0\x16\0\x80\x01\x81\x17\x82\x13\
        \x83\x11\x84\0\xff\xf0",
    ),
    (
        &[&[129, 23, 128, 1, 129, 23], &[10, 255, 20, 255, 22, 255]],
        b"\xff\xfa\x1e\x03\0\0\x01\0\x02\0\x03\0\x04\0\x05\0\x06\0\x07\0\x08\0\x09\0\x0a\xff\xff\
        \x0b\0\x0c\0\x0d\0\x0e\0\x0f\0\x10\0\x11\0\x12\0\x13\0\x14\xff\xff\x15\0\x16\xff\xff\x80\
        \x01\x81\x17\x82\x13\x83\x11\x84\0\xff\xf0",
    ),
];

#[test]
fn send_is_answered() {
    for (messages, expected) in TOLD {
        let mut lent = pad(37, 1);
        for pairs in *messages {
            assert_eq!(lent.draws(Host(&set(pairs))), b"");
        }
        assert_eq!(lent.draws(Host(SEND)), *expected, "{messages:?}");
    }
    let lengths: Vec<_> = TOLD.iter().map(|(_, told)| told.len()).collect();
    assert_eq!(lengths, [54, 62, 65]);
}

/// A message, what it draws, and parameters 2, 3 and 4 then.
const MESSAGES: &[(&[u8], &[u8], [u8; 3])] = &[
    (b"\xff\xfa\x1e\x00\x02\x01\x03\xff\xf0", b"", [0, 0, 0]),
    (
        b"\xff\xfa\x1e\x00\x02\x01\x04\x01\x03\x02\xff\xf0",
        b"",
        [1, 2, 0],
    ),
    (b"\xff\xfa\x1e\x01\x02\x01\xff\xf0", b"", [1, 0, 0]),
    (
        b"\xff\xfa\x1e\x00\x02\x01\xff\xfd\x03",
        b"\xff\xfc\x03",
        [0, 0, 0],
    ),
    (b"\xff\xfa\x1e\x02\x02\x01\xff\xf0", b"", [0, 0, 0]),
    (b"\xff\xfa\x1e\xff\xf0", b"", [0, 0, 0]),
    (
        b"\xff\xfe\x1e\xff\xfa\x1e\x00\x02\x01\xff\xf0",
        WONT_30,
        [0, 0, 0],
    ),
];

#[test]
fn a_message_acts_at_its_end_or_not_at_all() {
    for (message, reply, expected) in MESSAGES {
        let mut lent = pad(37, 1);
        lent.reply = vec![LENT; 1000];
        assert_eq!(lent.draws(Host(message)), *reply, "{message:x?}");
        let parameters = &lent.session[at::PARAMETERS..][2..5];
        assert_eq!(parameters, expected, "{message:x?}");
    }
}

/// Echo, forwarding on CR, editing with BS, signals for a display.
const EDITING: &[u8] = &[2, 1, 3, 2, 15, 1, 16, 8, 19, 2];

/// Further pairs that are set after these, and keys; then what the screen of
/// 40 by 2 begins with, the cursor, the line, and all that was sent.
type Typed = (
    &'static [u8],
    &'static [u8],
    &'static [u8],
    [u8; 2],
    &'static [u8],
    &'static [u8],
);

#[rustfmt::skip]
const TYPED: &[Typed] = &[
    (&[], b"ab", b"ab ", [2, 0], b"ab", b""),
    (&[], b"ab\x08", b"a  ", [1, 0], b"a", b""),
    (&[], b"ab\x08c\r", b"ac ", [0, 0], b"", b"ac\r\0"),
    (&[13, 6], b"ab\x08c\r", b"ac ", [0, 1], b"", b"ac\r\n"),
    (&[19, 1, 17, 21, 18, 18], b"ab\x08", b"ab\\ ", [3, 0], b"a", b""),
    (&[19, 1, 17, 21, 18, 18], b"ab\x08\x12", b"ab\\a ", [4, 0], b"a", b""),
    (&[19, 1, 17, 21, 18, 18], b"ab\x08\x12\x15", b"ab\\aXXX ", [0, 1], b"", b""),
    // While 15 is 0 an edit key is data, and BS is echoed as such.
    (&[15, 0], b"ab\x08c\r", b"ac ", [0, 0], b"", b"ab\x08c\r\0"),
    // The value 0 names no key.
    (&[16, 0], b"a\0", b"a ", [1, 0], b"a\0", b""),
    // An edit key comes before a forwarding key.
    (&[16, 13], b"ab\r", b"a  ", [1, 0], b"a", b""),
    (&[128, 1, 129, 23], b"one two  \x17", b"one  ", [4, 0], b"one ", b""),
    // Echo off; display is no echo.
    (&[2, 0, 18, 18], b"ab\x08", b"   ", [0, 0], b"a", b""),
    (&[2, 0, 18, 18], b"ab\x12", b"ab ", [2, 0], b"ab", b""),
    (&[2, 0, 3, 1], b" -a9", b"   ", [0, 0], b"", b" -a9"),
    (&[2, 0, 3, 8], b"ab\x7fc", b"   ", [0, 0], b"c", b"ab\x7f"),
    (&[2, 0, 3, 8, 16, 127], b"ab\x7f", b"   ", [0, 0], b"a", b""),
];

#[test]
fn keys_into_the_line() {
    for &(pairs, keys, screen, [x, y], line, sent) in TYPED {
        let mut lent = pad_with(40, 2, &[EDITING, pairs].concat());
        let zeros = lent.attrs.clone();
        let replies = keys.iter().flat_map(|key| lent.draws(Key((*key).into())));
        assert_eq!(replies.collect::<Vec<_>>(), sent, "{pairs:?} {keys:x?}");
        assert!(lent.chars.starts_with(screen), "{pairs:?} {keys:x?}");
        let session = lent.session();
        assert_eq!(session.cursor(), Cursor { x, y }, "{pairs:?} {keys:x?}");
        assert_eq!(session.line(), line, "{pairs:?} {keys:x?}");
        // Echo marks nothing.
        assert_eq!((&lent.attrs, &lent.marks), (&zeros, &zeros));
    }
}

#[test]
fn the_line_takes_the_keys_0_to_127() {
    for key in 0..=127 {
        let mut lent = pad(37, 1);
        // No guard, no class and no meaning on a form counts.
        lent.attrs.fill(if key % 2 == 0 { 0x08 } else { 0x18 });
        let before = lent.clone();
        assert_eq!(lent.draws(Key(key)), b"", "{key}");
        assert_eq!(lent.session().line(), [key as u8]);
        assert_eq!((&lent.chars, &lent.attrs), (&before.chars, &before.attrs));
    }
    for key in 128..=143 {
        pad(37, 1).refuses(8, Key(key));
    }
    for key in (144..=256).chain([256 + 65, 0x1_000d, u32::MAX]) {
        pad(37, 1).refuses(9, Key(key));
    }
}

#[test]
fn echo_on_guarded_cells_is_dropped() {
    let mut lent = pad_with(37, 1, EDITING);
    lent.attrs.fill(0x08);
    let before = lent.chars.clone();
    assert_eq!(lent.draws(Key(65)), b"");
    assert_eq!(lent.chars, before);
    assert_eq!(lent.session().cursor(), Cursor { x: 0, y: 0 });
    assert_eq!(lent.session().line(), b"A");
}

/// Fills the line with this key.
fn filled(mut lent: Lent, key: u32) -> Lent {
    for _ in 0..LINE_MOST {
        assert_eq!(lent.draws(Key(key)), b"");
    }
    assert_eq!(lent.session().line(), [key as u8; LINE_MOST]);
    lent
}

#[test]
fn a_full_line_goes_out_with_its_forwarding_key() {
    for (line_feeds, second) in [(0, 0), (2, b'\n')] {
        let mut lent = filled(pad(37, 1), CR);
        lent.clone().refuses(10, Key(CR));
        lent.draws(Host(&set(&[3, 2, 13, line_feeds])));
        let sent = lent.draws(Key(CR));
        assert_eq!(sent, [b'\r', second].repeat(129));
        assert_eq!(sent.len(), 258);
        assert_eq!(lent.session().line(), b"");
    }
}

#[test]
fn an_edit_key_makes_room_in_a_full_line() {
    let mut lent = filled(pad(37, 1), 'A'.into());
    for key in 0..=127 {
        lent.clone().refuses(10, Key(key));
    }
    lent.draws(Host(&set(&[15, 1, 16, 127])));
    lent.clone().refuses(10, Key('A'.into()));
    assert_eq!(lent.draws(Key(127)), b"");
    assert_eq!(lent.session().line(), [b'A'; LINE_MOST - 1]);
    assert_eq!(lent.draws(Key('B'.into())), b"");
    assert_eq!(lent.session().line().last(), Some(&b'B'));
    lent.refuses(10, Key('B'.into()));
}

#[test]
fn with_option_20_on_the_line_is_kept() {
    let mut lent = pad_with(37, 1, &[3, 2]);
    lent.draws(Key('a'.into()));
    assert_eq!(lent.draws(Host(DO_20)), b"\xff\xfb\x14");
    lent.draws(Key('b'.into()));
    assert!(lent.chars.starts_with(b"b "));
    let form = lent.draws(Key(CR));
    assert!(form.starts_with(b"\xff\xfa\x14\x1c\0\0\xff\xf0b  "));
    assert_eq!(lent.session().line(), b"a");
    assert_eq!(lent.draws(Host(DONT_20)), b"\xff\xfc\x14");
    assert_eq!(lent.draws(Key(CR)), b"a\r\0");
}

#[test]
fn dont_30_empties_the_line_unsent() {
    let mut lent = pad_with(37, 1, &[3, 2]);
    lent.draws(Key('a'.into()));
    lent.session[at::SUPPRESSED] = 1;
    assert_eq!(lent.draws(Host(DONT_30)), WONT_30);
    assert_eq!(lent.session().line(), b"");
    assert!(lent.session().is_suppressed());
    assert_eq!(lent.session().parameter(3), Some(2));
}

/// Options 20 and 30 on or off, parameter 13, the host's bytes; then what each
/// of two lines begins with.
type Shown = ([u8; 2], u8, &'static [u8], &'static [u8], &'static [u8]);

const SHOWN: &[Shown] = &[
    ([0, 1], 0, b"AB\r\nC", b"CB", b" "),
    ([0, 1], 1, b"AB\r\nC", b"AB", b"C"),
    ([0, 1], 6, b"AB\r\nC", b"CB", b" "),
    ([0, 0], 0, b"AB\r\nC", b"AB", b"C"),
    ([1, 1], 0, b"AB\r\nC", b"AB", b"C"),
    ([0, 1], 0, b"AB\r\n\nC", b"AB", b"C"),
    ([0, 1], 0, b"AB\r\xff\xf1\nC", b"CB", b" "),
    ([0, 1], 0, b"AB\r\xff\xff\nC", b"AB", b"C"),
];

#[test]
fn a_line_feed_right_after_a_carriage_return() {
    for &([det, pad], line_feeds, input, first, second) in SHOWN {
        let mut lent = Lent::open(40, 2);
        (lent.session[at::ON], lent.session[at::PAD_ON]) = (det, pad);
        lent.session[at::PARAMETERS + 13] = line_feeds;
        let (after, replies) = cut_anywhere(&lent, input);
        assert_eq!(replies, b"");
        let (line_0, line_1) = after.chars.split_at(40);
        assert!(line_0.starts_with(first), "{input:x?}");
        assert!(line_1.starts_with(second), "{input:x?}");
    }
}

/// Some of everything; its end is half read.
const STREAM: &[u8] = b"\xff\xfd\x1eAB\r\nC\xff\xfa\x1e\x00\x02\x01\x0d\x01\x0a\xff\xff\xff\xf0D\r\nE\
    \xff\xfa\x1e\x04\xff\xf0\xff\xfa\x1e\x00\x02\x00\xff\xfd\x1e\xff\xfa\x1e\x00\x03\x02\x03\xff\xf0\
    \xff\xfa\x1e\x04\x01\x01\xff\xf0\xff\xfd\x14\xff\xfa\x14\x04\x90\x79\xff\xf0\
    \xff\xfa\x14\x15\xff\xf0\xff\xfa\x1e\x00\x03\x7e\x14\xff\xff\x05\xff";

#[test]
fn a_stream_may_be_cut_anywhere() {
    let mut lent = Lent::open(40, 2);
    lent.reply = vec![LENT; 2000];
    let (after, replies) = cut_anywhere(&lent, STREAM);
    assert!(replies.starts_with(WILL_30));
    let session = after.session();
    assert_eq!((session.is_on(), session.is_pad_on()), (true, true));
    assert_eq!(session.reader(), Reader::SubIac(30));
    let values = [2, 3, 5, 10, 13, 20].map(|number| session.parameter(number));
    assert_eq!(values, [1, 0, 0, 255, 1, 0].map(Some));
    assert_eq!(after.session[at::STAGE..at::COPY], [2, 0, 5]);
    let copy = &after.session[at::COPY..];
    assert_eq!(
        [2, 3, 5, 10, 13, 20].map(|i| copy[i]),
        [1, 126, 0, 255, 1, 255]
    );
}
