//! The replay protocol: answers, state lines and bad lines.

use oracle::replay;
use oracle::variant::Variant;

fn answers(script: &str) -> Vec<String> {
    let mut output = Vec::new();
    let run = replay::script(Variant::None, &mut script.as_bytes(), &mut output);
    run.expect("neither side can fail");
    let output = String::from_utf8(output).expect("answers are ASCII");
    output.lines().map(String::from).collect()
}

fn last(script: &str) -> String {
    answers(script).pop().expect("an answer")
}

/// Option 30 off, an empty line, all parameters at their starts, nothing
/// agreed.
const START: &str = "0 - 00000000000000000000000000000000000000000000000000131100 0000000000";

/// Fields of the last answer, counted from 0, parted by spaces.
fn fields(script: &str, range: std::ops::Range<usize>) -> String {
    let answer = last(script);
    let fields: Vec<&str> = answer.split(' ').collect();
    assert_eq!(fields.len(), 18, "{answer}");
    fields[range].join(" ")
}

/// The fields of document 01; those of requests (i) and (ii) must be as at
/// the start.
fn last_base(script: &str) -> String {
    assert_eq!(fields(script, 12..16), START);
    fields(script, 0..12)
}

fn marks(script: &str) -> String {
    fields(script, 16..17)
}

#[test]
fn open_done_and_refused() {
    assert_eq!(
        last_base("open 2 1 2 2 2 732"),
        "0 0 0 - 2 1 0 0 0 0 2020 0000"
    );
    assert_eq!(
        last_base("open 2 1 2 3 2 732"),
        "2 0 0 - 0 0 0 0 0 0 2a2a 111111"
    );
    assert_eq!(
        last_base("open 65535 0 0 1 1 732"),
        "1 0 0 - 0 0 0 0 0 0 - 11"
    );
    assert_eq!(
        last_base("open 2 1 2 2 3 732"),
        "2 0 0 - 0 0 0 0 0 0 2a2a 1111"
    );
    let gone = "open 2 1 2 2 2 732\ndet 1\ncursor 1 0\npad 1\nopen 1 1 1 1 1 732";
    assert_eq!(last_base(gone), "0 0 0 - 1 1 0 0 0 0 20 00");
}

#[test]
fn before_any_open() {
    assert_eq!(last_base("host 41 3"), "1 0 0 a5a5a5 0 0 0 0 0 0 - -");
    assert_eq!(last_base("key 0 0"), "1 0 0 - 0 0 0 0 0 0 - -");
    assert_eq!(last("state"), "data - 0 000000000000");
    let moved = last_base("cursor 3 4\nkey 65 1");
    assert_eq!(moved, "1 0 0 a5 0 0 3 4 0 0 - -");
}

#[test]
fn host_and_key() {
    let last = last_base;
    let open = "open 1 1 1 1 1 732\n";
    let host = last(&format!("{open}host 41fffd0342 9"));
    assert_eq!(host, "0 4 3 fffc03a5a5a5a5a5a5 1 1 0 0 0 0 41 00");
    let host = last(&format!("{open}host - 9"));
    assert_eq!(host, "0 0 0 a5a5a5a5a5a5a5a5a5 1 1 0 0 0 0 20 00");
    let key = last(&format!("{open}det 1\nkey 143 9"));
    assert_eq!(key, "0 1 7 fffa142810fff0a5a5 1 1 0 0 1 0 20 00");
    let key = last(&format!("{open}key 65 8"));
    assert_eq!(key, "5 0 0 a5a5a5a5a5a5a5a5 1 1 0 0 0 0 20 00");
}

#[test]
fn set_lines() {
    let script =
        "open 1 1 1 1 1 732\nchars 7e\nattrs 08\nsuppress 1\ndet 1\ncursor 0 0\nheld 0\nkey 97 9";
    assert_eq!(answers(script)[1..7], ["set"; 6]);
    let typed = "0 1 0 a5a5a5a5a5a5a5a5a5 1 1 0 0 1 1 61 08";
    assert_eq!(last_base(script), typed);
    assert_eq!(last("chars -"), "set");
    assert_eq!(
        last("open 1 1 1 1 1 732\nchars 1f\nkey 97 9")
            .split(' ')
            .next(),
        Some("3")
    );
    assert_eq!(
        last("open 1 1 1 1 1 732\ncursor 1 0\nkey 97 9")
            .split(' ')
            .next(),
        Some("4")
    );
    assert_eq!(
        last("open 1 1 1 1 1 732\nheld 7\nkey 97 9")
            .split(' ')
            .next(),
        Some("4")
    );
}

/// Option 30, the line, the parameters.
fn pad_fields(script: &str) -> String {
    fields(script, 12..15)
}

#[test]
fn option_30_shows() {
    let open = "open 37 1 37 37 37 732\npad 1\n";
    let starts = START.split(' ').nth(2).expect("a field");
    assert_eq!(
        pad_fields(&format!("{open}key 65 333")),
        format!("1 41 {starts}")
    );
    let off = format!("{open}key 65 333\nkey 0 333\npad 0\nhost - 333");
    assert_eq!(pad_fields(&off), format!("0 4100 {starts}"));
    let set = format!("{open}host fffa1e00030280018105fff0 333");
    let values = "00000002000000000000000000000000000000000000000105131100";
    assert_eq!(pad_fields(&set), format!("1 - {values}"));
    let other = format!("{open}host fffa1e00030280018105fff0fffa1e008000fff0 342");
    assert_eq!(
        pad_fields(&other),
        format!("1 - {}", values.replace("0105", "0005"))
    );
    let half = format!("{open}host fffa1e000302ff 333");
    assert_eq!(pad_fields(&half), format!("1 - {starts}"));
    assert_eq!(last(&format!("{half}\nstate")), "sub-iac 30 3 000302000000");
    assert_eq!(last("pad 1"), "set");
    assert_eq!(pad_fields("pad 1\nkey 65 9"), format!("1 - {starts}"));
}

#[test]
fn a_message_ignores_count_and_held() {
    let message = "open 37 1 37 37 37 732\npad 1\nhost fffa1e000302 333\nheld 0\nhost 0d07fff0 333";
    assert!(pad_fields(message).contains(" 00000002000000000000000000070000"));
    let between = message.replace("held 0", "pad 0\nheld 6\npad 1");
    assert_eq!(pad_fields(&between), pad_fields(message));
}

#[test]
fn state_lines() {
    let after = |bytes: &str| last(&format!("open 1 1 1 1 1 732\nhost {bytes} 90\nstate"));
    assert_eq!(after("41"), "data - 0 000000000000");
    assert_eq!(after("ff"), "iac - 0 000000000000");
    assert_eq!(after("fffb"), "will - 0 000000000000");
    assert_eq!(after("fffc"), "wont - 0 000000000000");
    assert_eq!(after("fffd"), "do - 0 000000000000");
    assert_eq!(after("fffe"), "dont - 0 000000000000");
    assert_eq!(after("fffa"), "sb - 0 000000000000");
    assert_eq!(after("fffaff"), "sb-iac - 0 000000000000");
    assert_eq!(after("fffa14"), "sub 20 0 000000000000");
    assert_eq!(after("fffaffff0102"), "sub 255 2 010200000000");
    assert_eq!(
        after("fffa140102030405060708ff"),
        "sub-iac 20 6 010203040506"
    );
    assert_eq!(after("fffa140102fff0"), "data - 0 000000000000");
    assert_eq!(after("fffa140102fffa"), "sb - 0 000000000000");
    let held = last("open 1 1 1 1 1 732\nhost fffa14010203 9\nheld 1\nhost 04 9\nstate");
    assert_eq!(held, "sub 20 2 010403000000");
}

/// What is agreed.
fn maps(script: &str) -> String {
    fields(script, 15..16)
}

#[test]
fn agreed_maps_show() {
    let open = "open 1 1 1 1 1 732\nhost fffd14 90\n";
    let all = "host fffa1401fffffff0fffa1402fffffff0fffa1403fffffff0fffa1404fffffffffff0 90";
    assert_eq!(maps(open), "0000000000");
    assert_eq!(maps(&format!("{open}{all}")), "7e1f3fd079");
    let less = "host fffa1404108efff0fffa140107fff0 90";
    assert_eq!(maps(&format!("{open}{all}\n{less}")), "061f3f1008");
    assert_eq!(maps(&format!("{open}{all}\ndet 0\nhost - 9")), "7e1f3fd079");
    assert_eq!(maps(&format!("{open}{all}\nkey 0 9")), "7e1f3fd079");
    assert_eq!(maps(&format!("{open}{all}\nhost fffe14 90")), "0000000000");
    assert_eq!(
        maps(&format!("{open}{all}\nopen 1 1 1 1 1 732")),
        "0000000000"
    );
    assert_eq!(
        maps(&format!("{open}{all}\nopen 1 1 1 2 2 732")),
        "0000000000"
    );
}

#[test]
fn marks_show_at_the_end() {
    let open = "open 3 1 3 3 3 732\n";
    assert_eq!(marks(open), "000000");
    assert_eq!(marks("open 3 1 3 3 2 732"), "0101");
    assert_eq!(marks("open 0 0 0 0 4 732"), "01010101");
    assert_eq!(marks("open 3 1 3 3 0 732"), "-");
    assert_eq!(marks("host - 0"), "-");
    assert_eq!(last("marks 0102"), "set");
    assert_eq!(marks("marks 0102ff\nkey 65 9"), "0102ff");
    assert_eq!(marks(&format!("{open}key 65 27\nkey 66 27")), "010100");
    assert_eq!(marks(&format!("{open}marks 010001\nhost 41 27")), "010001");
    let answer = |script: &str| fields(&format!("{open}{script}"), 0..1);
    assert_eq!(answer("marks 000100\nhost - 27"), "0");
    assert_eq!(answer("marks 0001\nhost - 27"), "2");
    assert_eq!(answer("marks 00010000\nkey 9 27"), "2");
    assert_eq!(answer("marks -\nkey 9 27"), "2");
    assert_eq!(answer("marks 000200\nhost - 27"), "11");
    assert_eq!(answer("marks 0000ff\nkey 0 26"), "11");
    assert_eq!(answer("marks 000200\nheld 7\nhost - 27"), "4");
    assert_eq!(answer("marks 000200\nchars 20201f\nhost - 27"), "3");
    assert_eq!(answer("host - 26"), "5");
}

fn edition(script: &str) -> String {
    fields(script, 17..18)
}

#[test]
fn the_edition_shows_after_the_marks() {
    assert_eq!(edition("host - 0"), "732");
    assert_eq!(edition("open 1 1 1 1 1 731"), "731");
    assert_eq!(edition("open 1 1 1 1 1 732"), "732");
    let open = "open 1 1 1 1 1 731\nhost fffd14 9\n";
    assert_eq!(edition(&format!("{open}host fffe14 9")), "731");
    assert_eq!(edition(&format!("{open}key 0 9")), "731");
    assert_eq!(edition(&format!("{open}open 1 1 1 1 2 731")), "732");
    assert_eq!(edition("open 0 1 0 0 0 731"), "732");
    let answer = |script: &str| fields(script, 0..1);
    assert_eq!(answer("open 1 1 1 1 1 730"), "12");
    assert_eq!(answer("open 1 1 2 1 1 733"), "12");
    assert_eq!(answer("open 1 1 1 1 1 65535"), "12");
    assert_eq!(answer("open 0 1 0 0 0 0"), "1");
    assert_eq!(answer("open 1 1 2 1 1 731"), "2");
    assert_eq!(fields("open 1 1 1 1 1 0", 10..12), "2a 11");
    assert_eq!(edition("open 1 1 1 1 1 0"), "732");
    assert_eq!(answer("open 1 1 1 1 1 0\nkey 65 9"), "1");
}

/// Data and other commands leave it; the next option byte clears it.
#[test]
fn a_count_set_outside_a_subnegotiation_stays_until_the_option_byte() {
    let start = "open 1 1 1 1 1 732\ndet 1\nheld 3\n";
    assert_eq!(
        last(&format!("{start}host 41fff1 9\nstate")),
        "data - 3 000000000000"
    );
    assert_eq!(
        last(&format!("{start}host fffa1411 9\nstate")),
        "sub 20 1 110000000000"
    );
    let read = last_base(&format!("{start}host fffa140cfff0 9"));
    assert_eq!(read, "0 6 0 a5a5a5a5a5a5a5a5a5 1 1 0 0 1 0 20 00");
    let read = last_base(&format!("{start}host fffa1411fff0 9"));
    assert_eq!(read, "0 6 8 fffa14291101fff0a5 1 1 0 0 1 0 20 00");
}

#[test]
fn the_last_line_needs_no_newline() {
    assert_eq!(answers("state\nstate").len(), 2);
    assert_eq!(answers("state\nstate\n").len(), 2);
    assert_eq!(answers(""), Vec::<String>::new());
}

/// One a line; those that end in a space are tried apart.
const BAD_LINES: &str = "\
State
\x20state
state 1
stat
open 1 1 1 1 1
open 1 1 1 1 1 732 1
open 1 1 1 1 1 65536
open 1 1 1 1 1 -
open 65536 1 1 1 1 732
open 1 65536 1 1 1 732
open 1 1 8449 1 1 732
open 1 1 1 8449 1 732
open 1 1 1 1 8449 732
open  1 1 1 1 1 732
open -1 1 1 1 1 732
open +1 1 1 1 1 732
open 1 1 1 1 x 732
open 1 1 1 1 1 x
marks
marks 1
marks 0A
marks 01 01
chars
chars 1
chars 2A
chars 0g
chars 20 20
attrs --
cursor 1
cursor 256 0
cursor 0 256
held 256
held
det 2
det
suppress 2
suppress 1 1
pad
pad 2
pad 1 1
host 41
host 41 80001
host 4 9
host - -
key 256 9
key 65
key 65 80001
key -1 9
key 99999999999999999999 9
";

#[test]
fn bad_lines_end_the_script() {
    for line in BAD_LINES
        .lines()
        .chain(["", " ", "state ", "state\r", "chars "])
    {
        let expected = ["data - 0 000000000000", "bad line 2"];
        assert_eq!(
            answers(&format!("state\n{line}\nstate\n")),
            expected,
            "{line:?}"
        );
    }
    let long = |word: &str, bytes: usize| format!("{word} {}", "20".repeat(bytes));
    assert_eq!(last(&long("chars", 8_448)), "set");
    assert_eq!(last(&long("chars", 8_449)), "bad line 1");
    assert_eq!(last(&long("attrs", 8_449)), "bad line 1");
    assert_eq!(last(&long("marks", 8_448)), "set");
    assert_eq!(last(&long("marks", 8_449)), "bad line 1");
    assert!(last(&(long("host", 65_536) + " 0")).starts_with("1 0 0 - "));
    assert_eq!(last(&(long("host", 65_537) + " 0")), "bad line 1");
    assert!(last("host - 80000").starts_with("1 0 0 a5"));
}
