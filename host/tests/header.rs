//! `include/det.h` and this crate have the same numbers.

use host::refusal::Refusal;
use host::terminal::{at, reply_room, Reader, Session};
use host::terminal::{JUNE, LINE_MOST, MAP_COUNT, OWN_MAPS, OWN_MAPS_JUNE, PAD_CELLS};
use host::terminal::{PARAMETER_COUNT, SEPTEMBER, SESSION_LENGTH, SESSION_VERSION};

const HEADER: &str = include_str!("../../include/det.h");

/// The number that the header gives a name, in an enum or by a definition.
fn number(name: &str) -> usize {
    let value = HEADER.lines().find_map(|line| {
        let line = line.trim_start().trim_start_matches("#define ");
        let value = line.strip_prefix(name)?.trim_start_matches([' ', '=']);
        value.split([' ', ',']).next()?.parse().ok()
    });
    value.unwrap_or_else(|| panic!("the header has no number for {name}"))
}

#[test]
fn the_layout_of_a_session() {
    let parts = [
        ("VERSION", at::VERSION),
        ("WIDTH", at::WIDTH),
        ("HEIGHT", at::HEIGHT),
        ("X", at::X),
        ("Y", at::Y),
        ("ON", at::ON),
        ("PAD_ON", at::PAD_ON),
        ("SUPPRESSED", at::SUPPRESSED),
        ("READER", at::READER),
        ("OPTION", at::OPTION),
        ("HELD_COUNT", at::HELD_COUNT),
        ("HELD", at::HELD),
        ("CR", at::CR),
        ("PARAMETERS", at::PARAMETERS),
        ("LINE_LENGTH", at::LINE_LENGTH),
        ("LINE", at::LINE),
        ("STAGE", at::STAGE),
        ("CODE", at::CODE),
        ("WAITING", at::WAITING),
        ("COPY", at::COPY),
        ("MAPS", at::MAPS),
        ("EDITION", at::EDITION),
    ];
    for (name, place) in parts {
        assert_eq!(number(&format!("DET_AT_{name}")), place, "{name}");
    }
    assert_eq!(number("DET_SESSION_LENGTH"), SESSION_LENGTH);
    assert_eq!(number("DET_SESSION_VERSION"), usize::from(SESSION_VERSION));
    assert!(HEADER.contains("DET_REPLY_ROOM(m, n) ((size_t)9 * (m) * (n))"));
    assert_eq!(reply_room(132, 64), 9 * 132 * 64);
}

#[test]
fn option_30() {
    assert_eq!(number("DET_PAD_CELLS"), PAD_CELLS);
    assert_eq!(number("DET_LINE_MOST"), LINE_MOST);
    assert_eq!(number("DET_PARAMETER_COUNT"), PARAMETER_COUNT);
    let place = "DET_AT_PARAMETER(p) (DET_AT_PARAMETERS + ((p) < 128 ? (p) : (p) - 105))";
    assert!(HEADER.contains(place));
    let mut bytes = *Session::default().as_bytes();
    for (value, place) in (100..).zip(at::PARAMETERS..at::LINE_LENGTH) {
        bytes[place] = value;
    }
    let session = Session::from_bytes(bytes).expect("no value makes it anything else");
    let by_number = (0..=255).filter_map(|number| session.parameter(number));
    assert!(by_number.eq(100..128));
    assert!(session.parameters().iter().copied().eq(100..128));
    assert_eq!(session.parameter(22), Some(100 + 22));
    assert_eq!(session.parameter(128), Some(100 + 128 - 105));
}

#[test]
fn facility_maps() {
    assert_eq!(number("DET_MAP_COUNT"), MAP_COUNT);
    let names = ["EDIT", "ERASE", "TRANSMIT", "FORMAT_0", "FORMAT_1"];
    for (place, (name, own)) in names.into_iter().zip(OWN_MAPS).enumerate() {
        assert_eq!(number(&format!("DET_MAP_{name}")), place, "{name}");
        assert_eq!(number(&format!("DET_OWN_{name}")), own.into(), "{name}");
    }
}

#[test]
fn editions() {
    assert_eq!(number("DET_JUNE"), JUNE);
    assert_eq!(number("DET_SEPTEMBER"), SEPTEMBER);
    let mut june = OWN_MAPS;
    june[3] = number("DET_OWN_FORMAT_0_JUNE") as u8;
    assert_eq!(june, OWN_MAPS_JUNE);
}

#[test]
fn refusals() {
    let names = [
        ("SIZE", Refusal::Size),
        ("LENGTH", Refusal::Length),
        ("CHARACTER", Refusal::Character),
        ("RANGE", Refusal::Range),
        ("ROOM", Refusal::Room),
        ("GUARDED", Refusal::Guarded),
        ("CLASS", Refusal::Class),
        ("OFF", Refusal::Off),
        ("NO_MEANING", Refusal::NoMeaning),
        ("LINE_FULL", Refusal::LineFull),
        ("MARK", Refusal::Mark),
        ("EDITION", Refusal::Edition),
    ];
    for (name, refusal) in names {
        let expected = usize::from(refusal.number());
        assert_eq!(number(&format!("DET_{name}")), expected, "{name}");
    }
}

#[test]
fn where_the_reader_stands() {
    let names = [
        ("DATA", Reader::Data),
        ("IAC", Reader::Iac),
        ("WILL", Reader::Will),
        ("WONT", Reader::Wont),
        ("DO", Reader::Do),
        ("DONT", Reader::Dont),
        ("SB", Reader::Sb),
        ("SB_IAC", Reader::SbIac),
        ("SUB", Reader::Sub(0)),
        ("SUB_IAC", Reader::SubIac(0)),
    ];
    for (name, reader) in names {
        let mut bytes = *Session::default().as_bytes();
        bytes[at::READER] = number(&format!("DET_READER_{name}")) as u8;
        let session = Session::from_bytes(bytes);
        assert_eq!(session.map(|session| session.reader()), Some(reader));
    }
}
