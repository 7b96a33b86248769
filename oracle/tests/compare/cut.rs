//! Cutting down, on made-up differences.

use oracle::compare::cut::cut;
use oracle::compare::difference::Difference;
use oracle::compare::numbers::numbers;
use oracle::generate;
use oracle::script::{Line, Opening};

fn at(line: usize) -> Difference {
    Difference {
        line,
        right: "right".into(),
        other: format!("other at {line}"),
    }
}

fn lines(script: &str) -> Vec<Line> {
    let parse = |line: &str| Line::parse(line.as_bytes()).expect("a line");
    script.lines().map(parse).collect()
}

/// Cuts a script down whose every line is shown to `wrong` with those before.
fn cut_down(script: &[Line], wrong: impl Fn(&[Line], &Line) -> bool) -> Vec<String> {
    let mut differs = |script: &[Line]| {
        let index = (0..script.len()).find(|&index| wrong(&script[..index], &script[index]))?;
        Some(at(index + 1))
    };
    let found = differs(script).expect("a difference");
    let (left, found) = cut(script.to_vec(), found, &mut differs);
    assert_eq!(Some(&found), differs(&left).as_ref());
    left.iter().map(Line::to_string).collect()
}

#[test]
fn two_lines_that_belong_together_are_left() {
    let script = generate::script(1, 500);
    let left = cut_down(&script, |before, line| {
        let opened = |line: &Line| matches!(line, Line::Host(bytes, _) if bytes.contains(&0xfa));
        matches!(line, Line::Key(100.., 9..)) && before.iter().any(opened)
    });
    assert_eq!(left, ["host fa 0", "key 100 9"]);
}

#[test]
fn everything_after_the_difference_goes_first() {
    let script = generate::script(2, 300);
    let mut lengths = Vec::new();
    let mut differs = |script: &[Line]| {
        lengths.push(script.len());
        (script.len() >= 40).then(|| at(40))
    };
    let (left, found) = cut(script, at(40), &mut differs);
    assert_eq!((left.len(), found), (40, at(40)));
    assert_eq!(lengths[0], 40);
}

#[test]
fn bytes_are_left_out_and_made_plain() {
    let script = lines("chars 4142435a4445\nattrs 0102030405060708\nhost 4142fffd144344 77");
    let left = cut_down(&script, |before, line| {
        let [Line::Chars(chars), Line::Attrs(attrs)] = before else {
            return false;
        };
        let Line::Host(bytes, 5..) = line else {
            return false;
        };
        let told = bytes.windows(2).any(|pair| pair == [0xff, 0xfd]);
        told && chars.iter().skip(1).any(|&c| c == b'Z') && attrs.len() >= 3
    });
    assert_eq!(left, ["chars 205a", "attrs 000000", "host fffd 5"]);
}

#[test]
fn numbers_are_lowered() {
    let script =
        lines("open 65535 9 8 7 7 732\ncursor 200 100\nheld 9\ndet 1\nsuppress 1\nkey 143 80000");
    let left = cut_down(&script, |before, line| {
        let first = matches!(before.first(), Some(Line::Open(Opening { m: 300.., .. })));
        let second = matches!(before.get(1), Some(Line::Cursor(3.., 7..)));
        let rest = before.get(2..) == Some(&lines("held 9\ndet 1\nsuppress 1"));
        first && second && rest && matches!(line, Line::Key(143, 1_234..))
    });
    let expected = "open 300 0 0 0 0 732\ncursor 3 7\nheld 9\ndet 1\nsuppress 1\nkey 143 1234";
    assert_eq!(left.join("\n"), expected);
}

/// Only a buffer that fits its screen counts, so both must shrink together.
#[test]
fn a_screen_is_cropped_with_its_buffers() {
    let mut bytes = vec![b'.'; 40 * 12];
    bytes[7 * 40 + 13] = b'Z';
    let mut script = generate::script(3, 20);
    script.extend(lines("open 40 12 480 480 480 732\nstate"));
    script.extend([Line::Chars(bytes), Line::State]);
    let left = cut_down(&script, |before, line| {
        let opens = |line: &&Line| matches!(line, Line::Open(_));
        let (Some(open), Line::Chars(bytes)) = (before.iter().rfind(opens), line) else {
            return false;
        };
        let fits = numbers(open)[2..] == [bytes.len(); 3];
        fits && bytes.contains(&b'Z')
    });
    assert_eq!(left, ["open 0 0 1 1 1 732", "chars 5a"]);
}

#[test]
fn a_difference_that_never_returns_leaves_the_script() {
    let script = generate::script(4, 50);
    let (left, found) = cut(script.clone(), at(7), &mut |_| None);
    assert_eq!((left, found), (script, at(7)));
}

#[test]
fn a_difference_in_every_line_leaves_one() {
    let script = generate::script(5, 50);
    assert_eq!(cut_down(&script, |_, _| true).len(), 1);
}

/// A program that always ends badly still shows its wrong line.
#[test]
fn a_line_does_not_give_way_to_the_end() {
    let script = generate::script(6, 50);
    let wrong = |line: &Line| matches!(line, Line::Key(..));
    let mut differs = |script: &[Line]| {
        let index = script.iter().position(wrong).unwrap_or(script.len());
        Some(at(index + 1))
    };
    let found = differs(&script).expect("a difference");
    let (left, found) = cut(script.clone(), found, &mut differs);
    assert_eq!((left, found), (lines("key 0 0"), at(1)));

    let end = at(script.len() + 1);
    let (left, found) = cut(script, end, &mut |script| Some(at(script.len() + 1)));
    assert_eq!((left, found), (Vec::new(), at(1)));
}
