//! Parameters of option 30: starts, values, and the messages about them.

use crate::bench::{subnegotiation, Bench};
use oracle::pad::parameters::{admits, Parameters, NUMBERS};
use oracle::variant::Variant;

const SET: u8 = 0;
const RESPONSE_SET: u8 = 1;
const SEND: u8 = 4;

/// RESPONSE-IS with these values, all others at their starts.
fn told(values: &[(u8, u8)]) -> Vec<u8> {
    let extended = values.contains(&(128, 1));
    let mut inside = vec![3];
    for number in NUMBERS {
        let given = values.iter().find(|pair| pair.0 == number);
        let start = match number {
            130 => 19,
            131 => 17,
            _ => 0,
        };
        if number <= 128 || extended {
            inside.extend([number, given.map_or(start, |pair| pair.1)]);
        }
    }
    subnegotiation(30, &inside)
}

#[test]
fn send_is_answered_with_all_that_we_have() {
    let mut pad = Bench::pad(37, 1);
    let mut expected = vec![0xff, 0xfa, 30, 3];
    for number in (0..=22).chain([128]) {
        expected.extend([number, 0]);
    }
    expected.extend([0xff, 0xf0]);
    assert_eq!(pad.message(&[SEND]), expected);
    assert_eq!(expected, told(&[]));
    assert_eq!(pad.message(&[SET, 128, 1]), []);
    assert_eq!(pad.message(&[SEND]), told(&[(128, 1)]));
    let tail = [128, 1, 129, 0, 130, 19, 131, 17, 132, 0, 0xff, 0xf0];
    assert!(told(&[(128, 1)]).ends_with(&tail));
}

#[test]
fn values_of_255_are_doubled_both_ways() {
    let mut pad = Bench::pad(37, 1);
    pad.host(&[
        0xff, 0xfa, 30, 0, 10, 0xff, 0xff, 20, 0xff, 0xff, 0xff, 0xf0,
    ]);
    assert_eq!((pad.parameter(10), pad.parameter(20)), (255, 255));
    let reply = pad.message(&[SEND]);
    assert_eq!(reply, told(&[(10, 255), (20, 255)]));
    assert_eq!(reply.len(), 4 + 48 + 2 + 2);
    let pad = pad.set(&[255, 1, 3, 2]);
    assert_eq!(pad.parameter(3), 2);
}

type Takes = fn(u8) -> bool;

#[test]
fn each_parameter_takes_its_list() {
    let lists: [(&[u8], Takes); 13] = [
        (&[0, 2, 5, 8, 12, 15, 132], |value| value <= 1),
        (&[1], |value| value <= 1 || (32..=126).contains(&value)),
        (&[3, 16, 17, 18, 129, 130, 131], |value| value <= 127),
        (&[4, 6], |value| value == 0),
        (&[7], |value| value <= 1 + 2 + 4 + 8 + 16),
        (&[9, 14], |value| value <= 7),
        (&[10, 22], |_| true),
        (&[11], |value| value <= 18),
        (&[13], |value| value <= 1 + 2 + 4),
        (&[19], |value| {
            [0, 1, 2, 8].contains(&value) || (32..=126).contains(&value)
        }),
        (&[20], |_| true),
        (&[21], |value| value <= 1 + 2),
        (&[128], |value| [0, 1, 255].contains(&value)),
    ];
    let mut seen: Vec<u8> = lists.iter().flat_map(|list| list.0).copied().collect();
    seen.sort_unstable();
    assert_eq!(seen, NUMBERS);
    for (numbers, takes) in lists {
        for (&number, value) in numbers.iter().flat_map(|n| (0..=255).map(move |v| (n, v))) {
            let mut parameters = Parameters::default();
            parameters.set(128, 1, Variant::None);
            let before = parameters.get(number);
            parameters.set(number, value, Variant::None);
            let expected = if takes(value) { value } else { before };
            assert_eq!(parameters.get(number), expected, "{number} {value}");
            assert_eq!(admits(number, value, Variant::None), takes(value));
        }
    }
}

#[test]
fn pairs_are_applied_in_order_at_the_end() {
    let mut pad = Bench::pad(37, 1);
    assert_eq!(
        pad.message(&[RESPONSE_SET, 3, 2, 3, 4, 3, 200, 99, 1, 2, 1]),
        []
    );
    assert_eq!((pad.parameter(3), pad.parameter(2)), (4, 1));
    pad.host(&[0xff, 0xfa, 30, 0, 3, 8]);
    assert_eq!(pad.parameter(3), 4);
    pad.host(&[0xff, 0xf0]);
    assert_eq!(pad.parameter(3), 8);
}

#[test]
fn extension_parameters_belong_to_set_1() {
    let pad = Bench::pad(37, 1).set(&[129, 23, 128, 1, 130, 1]);
    assert_eq!((pad.parameter(129), pad.parameter(130)), (0, 1));
    let mut pad = pad.set(&[128, 0, 130, 2, 128, 2, 131, 3]);
    assert_eq!((pad.parameter(130), pad.parameter(131)), (1, 17));
    assert_eq!(pad.message(&[SEND]), told(&[]));
    let mut pad = pad.set(&[128, 255, 131, 3]);
    assert_eq!(pad.message(&[SEND]), told(&[(128, 255)]));
    let mut pad = pad.set(&[128, 1]);
    assert_eq!(pad.message(&[SEND]), told(&[(128, 1), (130, 1)]));
}

#[test]
fn bad_messages_are_ignored_whole() {
    let mut pad = Bench::pad(37, 1);
    let start = pad.terminal.session.pad.clone();
    let bad: [&[u8]; 9] = [
        &[],
        &[SET],
        &[SET, 3],
        &[SET, 3, 2, 2],
        &[2, 3, 2],
        &[3, 3, 2],
        &[5, 3, 2],
        &[255, 3, 2],
        &[SEND, 3],
    ];
    for inside in bad {
        assert_eq!(pad.message(inside), [], "{inside:?}");
        assert_eq!(pad.terminal.session.pad, start);
    }
    for command in [&[0xff, 0xf1][..], &[0xff, 0xfd, 30], &[0xff, 0xfa]] {
        let cut_off = [&[0xff, 0xfa, 30, 0, 3, 2, 2, 1], command].concat();
        assert_eq!(pad.host(&cut_off), []);
        pad.host(&[0xff, 0xf0]);
        assert_eq!(pad.terminal.session.pad, start);
    }
}

#[test]
fn send_is_answered_whatever_pairs_follow() {
    let mut pad = Bench::pad(37, 1);
    assert_eq!(pad.message(&[SEND, 3, 2]), told(&[]));
    let two = [subnegotiation(30, &[SEND]), subnegotiation(30, &[SEND])].concat();
    assert_eq!(pad.host(&two), [told(&[]), told(&[])].concat());
}

#[test]
fn messages_have_any_length() {
    let mut long = vec![SET];
    for value in 0..200 {
        long.extend([10, value]);
    }
    let mut pad = Bench::pad(37, 1);
    assert_eq!(pad.message(&long), []);
    assert_eq!(pad.parameter(10), 199);
    long.push(3);
    long[1..3].copy_from_slice(&[22, 7]);
    assert_eq!(pad.message(&long), []);
    assert_eq!(pad.parameter(22), 0);
}

/// The negotiation that document 002 gives as a sample, with our list.
#[test]
fn the_sample_negotiation() {
    let mut pad = Bench::pad(80, 24).set(&[1, 29, 2, 1, 3, 2, 13, 3, 15, 1, 16, 8, 17, 21]);
    pad.host(b"\r\n% ");
    pad.keys(b"cd gibber");
    assert_eq!(pad.key(13), b"cd gibber\r\n");
    assert_eq!(pad.message(&[SET, 2, 0]), []);
    let values = [(3, 2), (13, 3), (15, 1), (16, 8), (17, 21)];
    assert_eq!(pad.message(&[SEND]), told(&values));
    pad.host(b"\r\npassword: ");
    pad.keys(b"squeak");
    assert_eq!(pad.key(13), b"squeak\r\n");
    assert_eq!(pad.line(1).trim_end(), "% cd gibber");
    assert_eq!(pad.line(2).trim_end(), "password:");
}
