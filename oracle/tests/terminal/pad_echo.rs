//! What typing into the edit line shows.

use crate::bench::Bench;

/// A screen of 10 by 4 with echo, and edit keys as in the line's tests.
fn echoing(style: u8) -> Bench {
    let keys = [15, 1, 16, b'#', 17, b'@', 18, b'!', 128, 1, 129, b'%'];
    Bench::pad(10, 4).set(&keys).set(&[2, 1, 19, style])
}

/// The first two lines and the cursor after those keys.
fn shown(mut pad: Bench, keys: &[u8]) -> (String, String, (u8, u8)) {
    pad.keys(keys);
    let line = |y| pad.line(y).trim_end().to_string();
    (line(0), line(1), pad.cursor())
}

fn expect(first: &str, second: &str, cursor: (u8, u8)) -> (String, String, (u8, u8)) {
    (first.into(), second.into(), cursor)
}

#[test]
fn keys_are_echoed_as_host_text() {
    assert_eq!(shown(echoing(0), b"abc"), expect("abc", "", (3, 0)));
    assert_eq!(shown(echoing(0), b"abc\x08X"), expect("abX", "", (3, 0)));
    assert_eq!(
        shown(echoing(0), b"ab\nc\x00\x7f"),
        expect("ab", "  c", (3, 1))
    );
    let silent = echoing(0).set(&[2, 0]);
    assert_eq!(shown(silent, b"abc\n"), expect("", "", (0, 0)));
    let mut guarded = echoing(0);
    guarded.attrs[1] = 8;
    assert_eq!(shown(guarded, b"abc"), expect("a", "", (1, 0)));
}

#[test]
fn a_forwarding_key_is_echoed_too() {
    let mut pad = echoing(0).set(&[3, 1]);
    assert_eq!(pad.key(b'x'), b"x");
    assert_eq!(&pad.line(0)[..2], "x ");
}

#[test]
fn cr_is_echoed_with_a_line_feed_by_bit_4() {
    assert_eq!(shown(echoing(0), b"ab\rc"), expect("cb", "", (1, 0)));
    let with = |value| echoing(0).set(&[13, value]);
    assert_eq!(shown(with(3), b"ab\rc"), expect("cb", "", (1, 0)));
    assert_eq!(shown(with(4), b"ab\rc"), expect("ab", "c", (1, 1)));
    assert_eq!(shown(with(0), b"ab\r\nc"), expect("ab", "c", (1, 1)));
}

#[test]
fn the_mask_silences_by_sets() {
    let masked = |mask| echoing(2).set(&[20, mask]);
    assert_eq!(shown(masked(1), b"ab\r\nc"), expect("ab", "  c", (3, 1)));
    assert_eq!(shown(masked(2), b"ab\r\nc"), expect("cb", "", (1, 0)));
    assert_eq!(shown(masked(8), b"ab\x08c"), expect("abc", "", (3, 0)));
    assert_eq!(
        shown(masked(255), b"ab\r\n\x08c"),
        expect("abc", "", (3, 0))
    );
    assert_eq!(shown(masked(0), b"abc#"), expect("ab", "", (2, 0)));
    assert_eq!(shown(masked(64), b"abc#@%"), expect("abc", "", (3, 0)));
    let line_feed = masked(2).set(&[13, 4]);
    assert_eq!(shown(line_feed, b"ab\rc"), expect("ab", "c", (1, 1)));
    let off = masked(64).set(&[15, 0]);
    assert_eq!(shown(off, b"a#"), expect("a#", "", (2, 0)));
}

#[test]
fn an_edit_key_is_silenced_by_bit_64_alone() {
    let del = |mask| echoing(2).set(&[16, 127, 20, mask]);
    assert_eq!(shown(del(63), b"ab\x7f"), expect("a", "", (1, 0)));
    assert_eq!(shown(del(128), b"ab\x7f"), expect("a", "", (1, 0)));
    assert_eq!(shown(del(64), b"ab\x7f"), expect("ab", "", (2, 0)));
}

#[test]
fn character_deletes_are_signalled() {
    let after = |style| shown(echoing(style), b"abc#");
    assert_eq!(after(0), expect("abc", "", (3, 0)));
    assert_eq!(after(1), expect("abc\\", "", (4, 0)));
    assert_eq!(after(2), expect("ab", "", (2, 0)));
    assert_eq!(after(8), expect("abc", "", (2, 0)));
    assert_eq!(after(b'~'), expect("abc~", "", (4, 0)));
    assert_eq!(after(b' '), expect("abc", "", (4, 0)));
    let silent = echoing(1).set(&[2, 0]);
    assert_eq!(shown(silent, b"abc#"), expect("", "", (0, 0)));
}

#[test]
fn line_deletes_are_signalled() {
    let after = |style| shown(echoing(style), b"abc@");
    assert_eq!(after(0), expect("abc", "", (3, 0)));
    assert_eq!(after(1), expect("abcXXX", "", (0, 1)));
    assert_eq!(after(2), expect("", "", (0, 0)));
    assert_eq!(after(8), expect("abcXXX", "", (0, 1)));
    assert_eq!(after(b'~'), expect("abcXXX", "", (0, 1)));
}

#[test]
fn signals_of_an_empty_line() {
    let mut pad = echoing(2);
    pad.host(b"> ");
    assert_eq!(shown(pad, b"#"), expect(">", "", (1, 0)));
    let mut pad = echoing(2);
    pad.host(b"> ");
    assert_eq!(shown(pad, b"@%"), expect(">", "", (2, 0)));
    assert_eq!(shown(echoing(1), b"#@"), expect("\\XXX", "", (0, 1)));
}

#[test]
fn word_deletes_are_signalled_character_by_character() {
    assert_eq!(shown(echoing(2), b"ab cd %"), expect("ab", "", (3, 0)));
    assert_eq!(
        shown(echoing(1), b"ab cd%"),
        expect("ab cd\\\\", "", (7, 0))
    );
    assert_eq!(shown(echoing(0), b"ab cd%"), expect("ab cd", "", (5, 0)));
}

#[test]
fn the_line_is_displayed_and_its_key_is_not() {
    assert_eq!(shown(echoing(2), b"ab!"), expect("abab", "", (4, 0)));
    let masked = echoing(2).set(&[20, 64]);
    assert_eq!(shown(masked, b"ab!"), expect("abab", "", (4, 0)));
    let silent = echoing(2).set(&[2, 0, 20, 255]);
    assert_eq!(shown(silent, b"ab!"), expect("ab", "", (2, 0)));
    let line_feeds = echoing(2).set(&[2, 0, 13, 7]);
    assert_eq!(shown(line_feeds, b"ab\rc!"), expect("cb", "", (1, 0)));
}

#[test]
fn parameters_that_are_only_held_silence_nothing() {
    let held = [1, b'a', 5, 1, 12, 1, 22, 9, 130, b'b', 131, b'c', 8, 1];
    assert_eq!(
        shown(echoing(0).set(&held), b"abc"),
        expect("abc", "", (3, 0))
    );
}

#[test]
fn an_echo_is_no_host_text_to_parameter_13() {
    let mut pad = echoing(0).set(&[13, 4]);
    pad.keys(b"a\r");
    pad.host(b"\n");
    assert_eq!(pad.cursor(), (0, 2));
    pad.host(b"\r");
    pad.keys(b"b\n");
    assert_eq!(pad.cursor(), (1, 3));
}
