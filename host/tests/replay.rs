//! The replay protocol: answers, and lines that are none.

use host::replay;

fn answers(script: &[u8]) -> String {
    let (mut input, mut output) = (script, Vec::new());
    replay::run(&mut input, &mut output).expect("neither side can fail");
    String::from_utf8(output).expect("answers are ASCII")
}

/// What an answer says after open: option 30 off, an empty line, the
/// parameters at their start, nothing agreed.
const AT_START: &str = " 0 - 00000000000000000000000000000000000000000000000000131100 0000000000";

/// A script of calls, its last answer up to option 30, and what that ends with:
/// the marks and the edition.
const CALLS: &[(&str, &str, &str)] = &[
    ("host 41 3", "1 0 0 a5a5a5 0 0 0 0 0 0 - -", "- 732"),
    ("cursor 3 4\nkey 65 1", "1 0 0 a5 0 0 3 4 0 0 - -", "- 732"),
    (
        "open 2 1 2 2 2 732",
        "0 0 0 - 2 1 0 0 0 0 2020 0000",
        "0000 732",
    ),
    (
        "open 2 1 2 3 2 732",
        "2 0 0 - 0 0 0 0 0 0 2a2a 111111",
        "0101 732",
    ),
    (
        "open 2 1 2 2 3 732",
        "2 0 0 - 0 0 0 0 0 0 2a2a 1111",
        "010101 732",
    ),
    (
        "key 9 2\nopen 65535 0 0 8448 1 732\nopen 001 01 1 1 01 732\n",
        "0 0 0 - 1 1 0 0 0 0 20 00",
        "00 732",
    ),
    (
        "open 2 1 2 2 2 731",
        "0 0 0 - 2 1 0 0 0 0 2020 0000",
        "0000 731",
    ),
    (
        "open 2 1 2 2 2 733",
        "12 0 0 - 0 0 0 0 0 0 2a2a 1111",
        "0101 732",
    ),
    (
        "open 2 1 2 2 1 65535",
        "12 0 0 - 0 0 0 0 0 0 2a2a 1111",
        "01 732",
    ),
    (
        "open 1 1 1 1 1 731\nopen 0 1 1 1 1 733",
        "1 0 0 - 0 0 0 0 0 0 2a 11",
        "01 732",
    ),
    (
        "open 1 1 1 1 1 731\nopen 1 1 1 1 0 00731",
        "2 0 0 - 0 0 0 0 0 0 2a 11",
        "- 732",
    ),
    (
        "open 1 1 1 1 1 732\nhost 41fffd0342 9",
        "0 4 3 fffc03a5a5a5a5a5a5 1 1 0 0 0 0 41 00",
        "00 732",
    ),
    (
        "open 1 1 1 1 1 732\ndet 1\nkey 143 9",
        "0 1 7 fffa142810fff0a5a5 1 1 0 0 1 0 20 00",
        "00 732",
    ),
    (
        "open 1 1 1 1 1 731\ndet 1\nkey 143 9",
        "0 1 7 fffa142710fff0a5a5 1 1 0 0 1 0 20 00",
        "00 731",
    ),
    (
        "open 1 1 1 1 1 731\ndet 1\nkey 144 9",
        "9 0 0 a5a5a5a5a5a5a5a5a5 1 1 0 0 1 0 20 00",
        "00 731",
    ),
    (
        "open 1 1 1 1 1 732\nkey 65 8",
        "5 0 0 a5a5a5a5a5a5a5a5 1 1 0 0 0 0 20 00",
        "00 732",
    ),
    (
        "open 1 1 1 1 1 732\nattrs 08\nsuppress 1\nkey 97 9",
        "0 1 0 a5a5a5a5a5a5a5a5a5 1 1 0 0 0 1 61 08",
        "01 732",
    ),
    (
        "open 1 1 1 1 1 732\nchars 1f\nhost - 0",
        "3 0 0 - 1 1 0 0 0 0 1f 00",
        "00 732",
    ),
    (
        "open 1 1 1 1 1 732\nheld 7\nkey 255 0",
        "4 0 0 - 1 1 0 0 0 0 20 00",
        "00 732",
    ),
    (
        "open 1 1 1 1 1 732\nmarks 02\nkey 255 0",
        "11 0 0 - 1 1 0 0 0 0 20 00",
        "02 732",
    ),
    (
        "open 1 1 1 1 1 732\nmarks 01\nhost 41 9",
        "0 1 0 a5a5a5a5a5a5a5a5a5 1 1 0 0 0 0 41 00",
        "01 732",
    ),
    (
        "open 1 1 1 1 1 732\nhost fffd1e 9",
        "0 3 3 fffc1ea5a5a5a5a5a5 1 1 0 0 0 0 20 00",
        "00 732",
    ),
    (
        "open 37 1 37 37 37 732\npad 1\npad 0\nopen 1 1 1 1 1 732",
        "0 0 0 - 1 1 0 0 0 0 20 00",
        "00 732",
    ),
];

#[test]
fn each_call_is_answered() {
    for (script, expected, end) in CALLS {
        check(script, &format!("{expected}{AT_START} {end}"));
    }
}

/// A script, and its last answer.
const OTHERS: &[(&str, &str)] = &[
    ("state", "data - 0 000000000000"),
    (
        "open 1 1 1 1 1 732\nhost fffa18ff 9\nheld 255\nstate",
        "sub-iac 24 255 000000000000",
    ),
    (
        "open 1 1 1 1 1 732\nhost fffa180102 9\nstate",
        "sub 24 2 010200000000",
    ),
    ("chars -\nattrs -\nmarks -", "set"),
    ("pad 1", "set"),
];

#[test]
fn each_other_line_is_answered() {
    for (script, expected) in OTHERS {
        check(script, expected);
    }
}

fn check(script: &str, expected: &str) {
    let answers = answers(script.as_bytes());
    assert_eq!(answers.lines().count(), script.lines().count(), "{script}");
    assert_eq!(answers.lines().last(), Some(expected), "{script}");
}

/// What is done on a screen of 37 by 1 with option 30 on, and what the last
/// answer says of the option.
const PADS: &[(&str, &str)] = &[
    (
        "host - 333",
        "1 - 00000000000000000000000000000000000000000000000000131100",
    ),
    (
        "key 65 333\nkey 66 333",
        "1 4142 00000000000000000000000000000000000000000000000000131100",
    ),
    (
        "host fffa1e00800181178403ff 333",
        "1 - 00000000000000000000000000000000000000000000000000131100",
    ),
    (
        "host fffa1e0080018117840102010302fff0 333",
        "1 - 00000102000000000000000000000000000000000000000117131101",
    ),
    (
        "host fffa1e00800181170302fff0 333\nhost fffa1e008000fff0 333\nkey 65 333",
        "1 41 00000002000000000000000000000000000000000000000017131100",
    ),
    (
        "key 65 333\npad 0\nkey 66 333",
        "0 41 00000000000000000000000000000000000000000000000000131100",
    ),
    (
        "key 65 333\nhost fffe1e 333",
        "0 - 00000000000000000000000000000000000000000000000000131100",
    ),
];

#[test]
fn answers_tell_of_option_30() {
    for (script, expected) in PADS {
        let answers = answers(format!("open 37 1 37 37 37 732\npad 1\n{script}").as_bytes());
        let last = answers.lines().last().unwrap_or_default();
        assert!(last.starts_with("0 "), "{script}: {last}");
        let fields: Vec<&str> = last.split(' ').skip(12).take(3).collect();
        assert_eq!(fields.join(" "), *expected, "{script}");
    }
}

/// What the host sends with option 20 on, and what is agreed then.
const MAPS: &[(&str, &str)] = &[
    ("-", "0000000000"),
    ("fffa140104fff0", "0400000000"),
    ("fffa1401fffffff0", "7e00000000"),
    ("fffa140104fff0fffa140110fff0", "1000000000"),
    ("fffa140104fff0fffa1401fff0", "0400000000"),
    ("fffa140104fff0fffa14010202fff0", "0400000000"),
    ("fffa1402fffffff0fffa1403fffffff0", "001f3f0000"),
    ("fffa1404fffffffffff0", "000000d079"),
    ("fffa14049079fff0fffd14", "0000009079"),
    ("fffa14049079fff0fffe14", "0000000000"),
    ("fffa14049079fff0fffe14fffd14", "0000000000"),
    ("fffa14018afff0", "0a00000000"),
];

#[test]
fn answers_tell_what_is_agreed() {
    for (input, expected) in MAPS {
        assert_eq!(agreed(732, input), *expected, "{input}");
    }
    assert_eq!(agreed(731, "fffa1404fffffffffff0"), "0000009079");
    assert_eq!(agreed(731, "fffa14046f7ffff0"), "0000000079");
}

fn agreed(edition: usize, input: &str) -> String {
    let script = format!("open 1 1 1 1 1 {edition}\ndet 1\nhost {input} 999");
    let answers = answers(script.as_bytes());
    let last = answers.lines().last().unwrap_or_default();
    assert!(last.starts_with("0 "), "{input}: {last}");
    let fields: Vec<&str> = last.split(' ').collect();
    assert_eq!(fields.len(), 18, "{input}");
    fields[15].into()
}

#[test]
fn option_30_wants_37_cells() {
    for (cells, number) in [(36, '4'), (37, '0')] {
        let script = format!("open {cells} 1 {cells} {cells} {cells} 732\npad 1\nkey 65 999");
        let answers = answers(script.as_bytes());
        let last = answers.lines().last().unwrap_or_default();
        assert!(last.starts_with(number), "{cells}: {last}");
    }
}

const BAD: &[&str] = &[
    "",
    " ",
    "stat",
    "State",
    "state ",
    " state",
    "state 1",
    "det",
    "det ",
    "det 2",
    "det 1 1",
    "det  1",
    "det +1",
    "det 1\r",
    "suppress -1",
    "pad",
    "pad 2",
    "pad 1 1",
    "held 256",
    "cursor 1",
    "cursor 1 256",
    "key 256 9",
    "key 65",
    "key 65 80001",
    "host 41",
    "host 4 9",
    "host 4A 9",
    "host 4g 9",
    "host  9",
    "host -- 9",
    "chars",
    "attrs 0x11",
    "marks",
    "marks 1",
    "marks 01 01",
    "open 1 1 1 1 1",
    "open 1 1 1 1 1 732 1",
    "open 65536 1 1 1 1 732",
    "open 1 1 8449 1 1 732",
    "open 1 1 1 1 8449 732",
    "open 1 1 1 1 1 65536",
    "open 1 1 1 1 1 june",
    "open 1 1 1 1 1 99999999999999999999",
];

#[test]
fn a_bad_line_ends_the_script() {
    for line in BAD {
        let answers = answers(format!("state\n{line}\nstate\n").as_bytes());
        assert_eq!(answers, "data - 0 000000000000\nbad line 2\n", "{line:?}");
    }
    assert_eq!(answers(b"\xff\n"), "bad line 1\n");
    assert_eq!(answers(b""), "");
}

#[test]
fn bytes_have_limits() {
    for (word, most, rest) in [
        ("chars", 8448, ""),
        ("attrs", 8448, ""),
        ("marks", 8448, ""),
        ("host", 65536, " 0"),
    ] {
        let line = |bytes: usize| format!("{word} {}{rest}", "41".repeat(bytes));
        assert_ne!(answers(line(most).as_bytes()), "bad line 1\n", "{word}");
        assert_eq!(answers(line(most + 1).as_bytes()), "bad line 1\n", "{word}");
    }
}
