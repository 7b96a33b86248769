//! Keys into the edit line: text, edit keys and forwarding keys.

use crate::bench::{refused, Bench};
use oracle::refusal::Refusal;

/// Editing on: # deletes a character, @ the line, ! shows it, % a word.
const EDITING: [u8; 12] = [15, 1, 16, b'#', 17, b'@', 18, b'!', 128, 1, 129, b'%'];

fn editing() -> Bench {
    Bench::pad(37, 1).set(&EDITING)
}

#[test]
fn each_character_forwards_by_its_set() {
    let listed: [(u8, &[u8]); 6] = [
        (2, &[13]),
        (4, &[27, 7, 5, 6]),
        (8, &[127, 24, 18]),
        (16, &[3, 4]),
        (32, &[9, 10, 11, 12]),
        (
            64,
            &[
                0, 1, 2, 8, 14, 15, 16, 17, 19, 20, 21, 22, 23, 25, 26, 28, 29, 30, 31,
            ],
        ),
    ];
    for key in 0..=127_u8 {
        let set = listed.iter().find(|set| set.1.contains(&key));
        let set = set.map_or(u8::from(key.is_ascii_alphanumeric()), |set| set.0);
        for value in [0, 1, 2, 4, 8, 16, 32, 64, 127] {
            let mut pad = Bench::pad(37, 1).set(&[3, value]);
            let sent = pad.key(key);
            assert_eq!(
                sent.first() == Some(&key),
                set & value != 0,
                "{key} {value}"
            );
            assert_eq!(pad.edit_line().is_empty(), set & value != 0);
        }
    }
}

#[test]
fn a_line_waits_for_its_forwarding_key() {
    let mut pad = Bench::pad(37, 1).set(&[3, 2 + 32]);
    pad.keys(b"ab\x7f\x08\x00 c");
    assert_eq!(pad.edit_line(), b"ab\x7f\x08\x00 c");
    assert_eq!(pad.key(10), b"ab\x7f\x08\x00 c\n");
    assert_eq!(pad.key(13), b"\r\0");
    assert_eq!(pad.cursor(), (0, 0));
}

#[test]
fn a_cr_is_sent_as_two_bytes() {
    let mut pad = Bench::pad(37, 1).set(&[3, 32, 13, 5]);
    pad.keys(b"a\r\rb");
    assert_eq!(pad.edit_line(), b"a\r\rb");
    assert_eq!(pad.key(9), b"a\r\0\r\0b\t");
    pad.keys(b"\r");
    let mut pad = pad.set(&[13, 2]);
    assert_eq!(pad.key(9), b"\r\n\t");
}

#[test]
fn a_full_line() {
    let mut pad = editing().set(&[3, 2]);
    pad.keys(&[b'a'; 128]);
    assert_eq!(pad.edit_line().len(), 128);
    assert_eq!(pad.try_key(b'a'), refused(Refusal::LineFull));
    assert_eq!(Refusal::LineFull.number(), 10);
    assert_eq!(pad.try_key(0), refused(Refusal::LineFull));
    pad.keys(b"!#");
    assert_eq!(pad.edit_line().len(), 127);
    pad.keys(b"b");
    let mut expected = vec![b'a'; 127];
    expected.extend(b"b\r\0");
    assert_eq!(pad.key(13), expected);
    assert_eq!(pad.edit_line(), b"");
}

#[test]
fn a_full_line_of_cr_fits_the_least_room() {
    let mut pad = Bench::pad(37, 1).set(&[3, 64]);
    pad.room = 9 * 37;
    pad.keys(&[13; 128]);
    assert_eq!(pad.try_key(b' '), refused(Refusal::LineFull));
    let mut expected = b"\r\0".repeat(128);
    expected.push(0);
    assert_eq!(pad.key(0), expected);

    let mut pad = Bench::pad(37, 1);
    pad.room = 9 * 37;
    pad.keys(&[13; 128]);
    let mut pad = pad.set(&[3, 2, 13, 2]);
    assert_eq!(pad.key(13), b"\r\n".repeat(129));
}

#[test]
fn refusals_while_the_line_takes_the_keys() {
    let mut pad = Bench::pad(37, 1).set(&[2, 1]);
    pad.attrs.fill(8);
    pad.keys(b"A1 ");
    pad.attrs.fill(24);
    pad.keys(b"A\r\t\x08\x7f\x00\x1f");
    assert_eq!(pad.try_key(128), refused(Refusal::DetOff));
    assert_eq!(pad.try_key(143), refused(Refusal::DetOff));
    assert_eq!(pad.try_key(144), refused(Refusal::NoMeaning));
    assert_eq!(pad.try_key(255), refused(Refusal::NoMeaning));
    pad.keys(&[b'x'; 118]);
    assert_eq!(pad.try_key(b'x'), refused(Refusal::LineFull));
    pad.room = 260;
    assert_eq!(pad.try_key(b'x'), refused(Refusal::Room));
    assert_eq!(pad.try_key(255), refused(Refusal::Room));
}

#[test]
fn edit_keys() {
    let mut pad = editing();
    pad.keys(b"abc#");
    assert_eq!(pad.edit_line(), b"ab");
    pad.keys(b"###");
    assert_eq!(pad.edit_line(), b"");
    pad.keys(b"abc@!");
    assert_eq!(pad.edit_line(), b"");
    pad.keys(b"abc!");
    assert_eq!(pad.edit_line(), b"abc");
    assert_eq!(&pad.line(0)[..4], "abc ");
}

#[test]
fn a_word_ends_with_the_spaces_after_it() {
    let words: [(&[u8], &[u8]); 6] = [
        (b"one two%", b"one "),
        (b"one two  %", b"one "),
        (b"one two  %%", b""),
        (b"  %", b""),
        (b"%", b""),
        (b" a\tb\rc%", b" "),
    ];
    for (keys, left) in words {
        let mut pad = editing();
        pad.keys(keys);
        assert_eq!(pad.edit_line(), left);
    }
}

#[test]
fn edit_keys_are_data_where_editing_is_off() {
    let mut pad = editing().set(&[15, 0]);
    pad.keys(b"a#@!%");
    assert_eq!(pad.edit_line(), b"a#@!%");
    let mut pad = editing().set(&[128, 0]);
    pad.keys(b"ab%#");
    assert_eq!(pad.edit_line(), b"ab");
    let mut pad = pad.set(&[128, 1]);
    pad.keys(b"%");
    assert_eq!(pad.edit_line(), b"");
}

#[test]
fn key_0_is_never_an_edit_key() {
    let mut pad = Bench::pad(37, 1).set(&[15, 1, 128, 1]);
    pad.keys(&[b'a', 0]);
    assert_eq!(pad.edit_line(), [b'a', 0]);
}

#[test]
fn an_edit_key_does_not_forward() {
    let mut pad = Bench::pad(37, 1).set(&[3, 8 + 1, 15, 1, 16, 127, 17, b'Q']);
    pad.keys(b"?!\x7f");
    assert_eq!(pad.edit_line(), b"?");
    pad.keys(b"Q");
    assert_eq!(pad.key(b'q'), b"q");
    let mut pad = pad.set(&[15, 0]);
    assert_eq!(pad.key(127), [127]);
}

#[test]
fn of_two_edit_keys_the_first_parameter_counts() {
    let mut pad = editing().set(&[16, b'=', 17, b'=', 18, b'=']);
    pad.keys(b"abc=");
    assert_eq!(pad.edit_line(), b"ab");
    let mut pad = pad.set(&[16, 0]);
    pad.keys(b"=");
    assert_eq!(pad.edit_line(), b"");
}
