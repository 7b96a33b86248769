//! The form, and the bytes with which the host paints it.

use crate::telnet::{subnegotiation, turn_on, DET, IAC, SE};

pub const WIDTH: usize = 40;
pub const HEIGHT: usize = 8;

const TEXT: [&[u8; WIDTH]; HEIGHT] = [
    b"              DOSING FORM               ",
    b"                                        ",
    b" Weight [      ] kg    Patient 4021-17  ",
    b"                                        ",
    b" Dose   [      ] mg    Every [  ] hours ",
    b" Given by [                ]            ",
    b"                                        ",
    b" Fill in the fields, then press SEND.   ",
];

/// A run of cells on one line.
pub struct Run {
    pub name: &'static str,
    pub x: u8,
    pub y: u8,
    pub length: u8,
}

const fn run(name: &'static str, x: u8, y: u8, length: u8) -> Run {
    Run { name, x, y, length }
}

pub const WEIGHT: Run = run("weight", 9, 2, 6);
pub const NUMBER: Run = run("patient", 31, 2, 7);

const PROTECTED: u8 = 0x08;
const ALPHABETIC: u8 = 0x10;
const NUMERIC: u8 = 0x18;

/// The fields that are left open, in reading order, each with its attribute
/// byte.
pub const FIELDS: [(Run, u8); 4] = [
    (WEIGHT, NUMERIC),
    (run("dose", 9, 4, 6), NUMERIC),
    (run("every", 30, 4, 2), NUMERIC),
    (run("given by", 11, 5, 16), ALPHABETIC),
];

/// What the host can do: the four commands that say so, each with its map.
const FACILITIES: [&[u8]; 4] = [&[1, 0x7e], &[2, 0x1f], &[3, 0x3f], &[4, 0xd0, 0x79]];

const MOVE_CURSOR: u8 = 5;
const HOME: u8 = 12;
const TRANSMIT_UNPROTECTED: u8 = 21;
const TRANSMIT_MODIFIED: u8 = 27;
const ERASE_SCREEN: u8 = 29;
const FORMAT_DATA: u8 = 36;

/// Turns option 20 on and sends the host's facility maps.
pub fn negotiate() -> Vec<u8> {
    let mut bytes = turn_on(DET);
    bytes.extend(FACILITIES.into_iter().flat_map(subcommand));
    bytes
}

/// Writes the text, protects every cell, opens the fields and puts the cursor
/// in the first.
pub fn paint() -> Vec<u8> {
    let mut bytes: Vec<u8> = TEXT.into_iter().flatten().copied().collect();
    bytes.extend(move_cursor(0, 0));
    bytes.extend(format_data(PROTECTED, (WIDTH * HEIGHT) as u16));
    for (field, attribute) in FIELDS {
        bytes.extend(move_cursor(field.x, field.y));
        bytes.extend(format_data(attribute, field.length.into()));
    }
    bytes.extend(subcommand(&[HOME]));
    bytes
}

/// Paints the form anew, with these texts in its fields. No field is touched
/// then.
pub fn paint_with(texts: &[String]) -> Vec<u8> {
    let mut bytes = subcommand(&[ERASE_SCREEN]);
    bytes.extend(paint());
    for ((field, _), text) in FIELDS.iter().zip(texts) {
        bytes.extend(move_cursor(field.x, field.y));
        bytes.extend(text.as_bytes());
    }
    bytes.extend(subcommand(&[HOME]));
    bytes
}

/// Asks for all fields.
pub fn ask_for_all() -> Vec<u8> {
    subcommand(&[TRANSMIT_UNPROTECTED])
}

/// Asks for those that were touched.
pub fn ask_for_touched() -> Vec<u8> {
    subcommand(&[TRANSMIT_MODIFIED])
}

pub fn move_cursor(x: u8, y: u8) -> Vec<u8> {
    subcommand(&[MOVE_CURSOR, x, y])
}

fn format_data(attribute: u8, cells: u16) -> Vec<u8> {
    let [high, low] = cells.to_be_bytes();
    subcommand(&[FORMAT_DATA, attribute, 0, high, low])
}

fn subcommand(bytes: &[u8]) -> Vec<u8> {
    subnegotiation(DET, bytes)
}

/// The fields in what the terminal sends: each text stands after the end of a
/// subcommand, and up to the next IAC.
pub fn texts(reply: &[u8]) -> Vec<String> {
    let after_commands = reply.split(|byte| *byte == SE).skip(1);
    let text = |bytes: &[u8]| {
        let bytes = bytes.iter().take_while(|byte| **byte != IAC);
        bytes.copied().map(char::from).collect()
    };
    after_commands.map(text).collect()
}
