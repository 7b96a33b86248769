//! The pieces that the cutting down is made of.

use oracle::compare::crop::{crop, Side};
use oracle::compare::numbers::{lower, numbers, with_numbers};
use oracle::compare::shorten::leave_out;
use oracle::compare::tally::Tally;
use oracle::script::Line;

fn lines(script: &str) -> Vec<Line> {
    let parse = |line: &str| Line::parse(line.as_bytes()).expect("a line");
    script.lines().map(parse).collect()
}

fn cropped(script: &str, open: usize, side: Side, length: usize) -> Option<String> {
    let script = crop(&lines(script), open, side, length)?;
    let texts: Vec<String> = script.iter().map(Line::to_string).collect();
    Some(texts.join("\n"))
}

#[test]
fn a_crop_keeps_the_cells_of_the_other_side() {
    let script = "open 3 2 6 6 6 732\nchars 616263646566";
    let chars = |side, length| cropped(script, 0, side, length);
    let expected = |text: &str| Some(text.to_string());
    assert_eq!(
        chars(Side::Bottom, 1),
        expected("open 3 1 3 3 3 732\nchars 616263")
    );
    assert_eq!(
        chars(Side::Top, 1),
        expected("open 3 1 3 3 3 732\nchars 646566")
    );
    assert_eq!(
        chars(Side::Right, 2),
        expected("open 2 2 4 4 4 732\nchars 61626465")
    );
    assert_eq!(
        chars(Side::Left, 1),
        expected("open 1 2 2 2 2 732\nchars 6366")
    );
}

#[test]
fn a_crop_moves_cursors_and_rooms_along() {
    let script = "open 4 1 4 4 4 732\ncursor 3 0\ncursor 0 0\ncursor 4 1\nhost 41 38\nkey 65 9";
    let left = "open 3 1 3 3 3 732\ncursor 2 0\ncursor 0 0\ncursor 3 1\nhost 41 29\nkey 65 0";
    assert_eq!(cropped(script, 0, Side::Left, 3), Some(left.into()));
}

#[test]
fn a_crop_ends_at_the_next_open() {
    let script = "state\nopen 2 1 2 2 2 732\nattrs 0102\nopen 2 1 2 2 2 732\nattrs 0102\nkey 65 16";
    let left = "state\nopen 1 1 1 1 1 732\nattrs 02\nopen 2 1 2 2 2 732\nattrs 0102\nkey 65 16";
    assert_eq!(cropped(script, 1, Side::Left, 1), Some(left.into()));
}

#[test]
fn what_is_no_screen_is_not_cropped() {
    assert_eq!(cropped("state", 0, Side::Top, 1), None);
    assert_eq!(cropped("open 2 2 4 3 4 732", 0, Side::Top, 1), None);
    assert_eq!(cropped("open 2 2 4 4 3 732", 0, Side::Top, 1), None);
    assert_eq!(cropped("open 2 2 4 4 4 732", 0, Side::Top, 0), None);
    assert_eq!(cropped("open 2 2 4 4 4 732", 0, Side::Top, 2), None);
}

#[test]
fn blocks_are_left_out_to_single_items() {
    let items: Vec<u32> = (0..1_000).collect();
    let wanted = [3, 500, 999];
    let left = leave_out(items, 1, |left| {
        wanted.iter().all(|item| left.contains(item))
    });
    assert_eq!(left, wanted);
}

#[test]
fn a_number_goes_as_low_as_it_fits() {
    assert_eq!(lower(65_535, |_| true), 0);
    assert_eq!(lower(65_535, |_| false), 65_535);
    for least in [1, 9, 41, 132, 60_000] {
        assert_eq!(lower(65_535, |number| number >= least), least);
    }
}

#[test]
fn every_number_of_a_line_can_be_set() {
    let script =
        "open 5 6 7 8 8 732\ncursor 5 6\nheld 5\ndet 1\nsuppress 1\npad 1\nhost ff 5\nkey 5 6";
    for line in lines(script) {
        let zeros = vec![0; numbers(&line).len()];
        assert!(!zeros.is_empty());
        let zeroed = with_numbers(&line, &zeros);
        assert_eq!(numbers(&zeroed), zeros);
        assert_eq!(with_numbers(&zeroed, &numbers(&line)), line);
    }
}

#[test]
fn calls_are_counted_apart_from_lines() {
    let mut tally = Tally::default();
    tally.add(&lines(
        "open 1 1 1 1 1 732\nstate\nhost - 9\nhost - 9\nkey 65 9",
    ));
    let expected = "4 calls (1 open, 2 host, 1 key) and 5 lines";
    assert_eq!(tally.to_string(), expected);
}
