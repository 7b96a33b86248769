//! The inputs: what a host sends. Both sides of a row take the same bytes.

const IAC: u8 = 255;
pub const WILL: u8 = 251;
const WONT: u8 = 252;
pub const DO: u8 = 253;
pub const DONT: u8 = 254;
const VERBS: [u8; 4] = [WILL, WONT, DO, DONT];
const SB: u8 = 250;
const SE: u8 = 240;
const DET: u8 = 20;
const PAD: u8 = 30;

const EDIT_FACILITIES: u8 = 1;
const ERASE_FACILITIES: u8 = 2;
const TRANSMIT_FACILITIES: u8 = 3;
const FORMAT_FACILITIES: u8 = 4;
const MOVE_CURSOR: u8 = 5;
const ERASE_SCREEN: u8 = 29;
const FORMAT_DATA: u8 = 36;
const SUPPRESS_PROTECTION: u8 = 38;
const LAST_CODE: u8 = 41;

/// The second to fourth are right for FORMAT DATA, REPEAT and SUPPRESS
/// PROTECTION; the last asks for every facility.
const PARAMETERS: [[u8; 5]; 5] = [
    [1, 1, 1, 1, 1],
    [1, 0, 0, 1, 1],
    [9, b'x', 1, 1, 1],
    [DO, 1, 1, 1, 1],
    [ALL, ALL, 1, 1, 1],
];

/// Every facility that governs a command has one of these bits.
const ALL: u8 = 127;

/// Turns option 20 on and asks for every facility, as a host does before its
/// first form: a call for each, since each draws a reply.
pub fn begin() -> [Vec<u8>; 5] {
    [
        vec![IAC, DO, DET],
        subcommand(&[EDIT_FACILITIES, ALL]),
        subcommand(&[ERASE_FACILITIES, ALL]),
        subcommand(&[TRANSMIT_FACILITIES, ALL]),
        subcommand(&[FORMAT_FACILITIES, ALL, ALL]),
    ]
}

/// Turn option 20 off and option 30 on, by which the edit line takes the keys.
pub const TO_LINE: [[u8; 3]; 2] = [[IAC, DONT, DET], [IAC, DO, PAD]];

const SET: u8 = 0;
const RESPONSE_SET: u8 = 1;
const SEND: u8 = 4;

const ANY: u8 = 0x00;
const PROTECTED: u8 = 0x08;
const ALPHABETIC: u8 = 0x10;
const NUMERIC: u8 = 0x18;

/// A label, and after it a field of so many cells with this attribute byte.
struct Entry {
    x: u8,
    y: u8,
    label: &'static str,
    cells: u8,
    attribute: u8,
}

const fn entry(x: u8, y: u8, label: &'static str, cells: u8, attribute: u8) -> Entry {
    Entry {
        x,
        y,
        label,
        cells,
        attribute,
    }
}

const PATIENT: [Entry; 12] = [
    entry(28, 0, "PATIENT RECORD", 0, ANY),
    entry(2, 2, "Family name: ", 30, ALPHABETIC),
    entry(2, 3, "Given names: ", 30, ALPHABETIC),
    entry(52, 2, "Number: ", 10, NUMERIC),
    entry(52, 3, "Ward:   ", 4, ANY),
    entry(2, 5, "Born (year month day): ", 10, NUMERIC),
    entry(2, 7, "Weight: ", 6, NUMERIC),
    entry(16, 7, " kg", 0, ANY),
    entry(30, 7, "Height: ", 5, NUMERIC),
    entry(43, 7, " cm", 0, ANY),
    entry(2, 9, "Allergies: ", 60, ANY),
    entry(2, 22, "Fill in the fields, then press SEND.", 0, ANY),
];

const DOSE: [Entry; 14] = [
    entry(30, 0, "DOSING ORDER", 0, ANY),
    entry(2, 2, "Drug:     ", 32, ALPHABETIC),
    entry(2, 3, "Strength: ", 8, NUMERIC),
    entry(20, 3, " mg in ", 6, NUMERIC),
    entry(33, 3, " ml", 0, ANY),
    entry(2, 5, "Dose:     ", 8, NUMERIC),
    entry(20, 5, " mg", 0, ANY),
    entry(2, 6, "Every:    ", 3, NUMERIC),
    entry(15, 6, " hours, for ", 3, NUMERIC),
    entry(30, 6, " days", 0, ANY),
    entry(2, 8, "Route:    ", 12, ALPHABETIC),
    entry(2, 10, "Ordered by: ", 24, ALPHABETIC),
    entry(42, 10, "Checked by: ", 24, ALPHABETIC),
    entry(2, 22, "The dose is for the weight on the record.", 0, ANY),
];

const WARNING: [Entry; 4] = [
    entry(20, 8, "This drug is on the list of allergies.", 0, ANY),
    entry(20, 10, "Give it all the same (Y or N)? ", 1, ALPHABETIC),
    entry(20, 12, "Reason: ", 30, ANY),
    entry(20, 14, "Second signature: ", 20, ALPHABETIC),
];

const FORMS: [&[Entry]; 3] = [&PATIENT, &DOSE, &WARNING];

/// One form after the other, each whole, until there are so many bytes. They
/// fit on 80 by 24 and draw no reply.
pub fn forms(length: usize) -> Vec<u8> {
    let mut bytes = Vec::new();
    for form in FORMS.into_iter().cycle() {
        if bytes.len() >= length {
            break;
        }
        paint(form, &mut bytes);
    }
    bytes
}

/// One form, and the cursor at the start of its first field.
pub fn one_form() -> Vec<u8> {
    let mut bytes = Vec::new();
    paint(&PATIENT, &mut bytes);
    let first = &PATIENT[1];
    bytes.extend(move_cursor(first.x + first.label.len() as u8, first.y));
    bytes
}

/// Erases the screen, writes each label and opens the field after it, then
/// protects the label.
fn paint(form: &[Entry], bytes: &mut Vec<u8>) {
    bytes.extend(subcommand(&[ERASE_SCREEN]));
    for entry in form {
        bytes.extend(move_cursor(entry.x, entry.y));
        bytes.extend(entry.label.as_bytes());
        if entry.cells > 0 {
            bytes.extend(format_data(entry.attribute, entry.cells));
        }
        bytes.extend(move_cursor(entry.x, entry.y));
        bytes.extend(format_data(PROTECTED, entry.label.len() as u8));
    }
}

fn move_cursor(x: u8, y: u8) -> Vec<u8> {
    subcommand(&[MOVE_CURSOR, x, y])
}

fn format_data(attribute: u8, cells: u8) -> Vec<u8> {
    subcommand(&[FORMAT_DATA, attribute, 0, 0, cells])
}

pub fn subcommand(bytes: &[u8]) -> Vec<u8> {
    subnegotiation(DET, bytes)
}

/// Sets parameters of option 30.
pub fn set(pairs: &[u8]) -> Vec<u8> {
    subnegotiation(PAD, &[&[SET], pairs].concat())
}

/// For bytes without an IAC, which would have to be doubled.
fn subnegotiation(option: u8, bytes: &[u8]) -> Vec<u8> {
    [&[IAC, SB, option], bytes, &[IAC, SE]].concat()
}

pub fn negotiation(verb: u8, option: u8) -> Vec<u8> {
    vec![IAC, verb, option]
}

/// Suppresses protection.
pub fn suppress() -> Vec<u8> {
    subcommand(&[SUPPRESS_PROTECTION, DO])
}

/// Every negotiation, and every subcommand with 0 to 5 parameters of several
/// values: each is obeyed or draws an ERROR.
pub fn commands() -> Vec<Vec<u8>> {
    let negotiations = VERBS.map(|verb| negotiation(verb, DET));
    let mut commands = Vec::from(negotiations);
    for code in 0..=LAST_CODE {
        for parameters in PARAMETERS {
            for count in 0..=parameters.len() {
                let bytes = [&[code], &parameters[..count]].concat();
                commands.push(subcommand(&bytes));
            }
        }
    }
    commands
}

/// Option 30's: all of its parameters set and asked for, and its negotiations.
pub fn messages() -> Vec<Vec<u8>> {
    let pairs: Vec<u8> = (0..=132).flat_map(|number| [number, 1]).collect();
    let messages = [SET, RESPONSE_SET, SEND].map(|code| {
        let bytes = [&[code], &pairs[..]].concat();
        subnegotiation(PAD, &bytes)
    });
    let negotiations = VERBS.map(|verb| negotiation(verb, PAD));
    messages.into_iter().chain(negotiations).collect()
}

const WORDS: [&str; 12] = [
    "the", "dose", "of", "a", "patient", "is", "checked", "against", "weight", "before", "it",
    "given.",
];

/// Lines of words, each below 80 characters and ended in this way, until there
/// are so many bytes.
pub fn text(length: usize, line_end: &[u8]) -> Vec<u8> {
    lines(length, &[71, 64, 79, 58, 75, 12, 68], line_end)
}

/// Lines of 1 to 8 characters.
pub fn short_lines(length: usize) -> Vec<u8> {
    lines(length, &[3, 1, 8, 2, 5, 1, 4], b"\r\n")
}

/// No two printable bytes stand together, and the cursor stays on its line.
pub fn one_a_line(length: usize) -> Vec<u8> {
    lines(length, &[1], b"\r")
}

fn lines(length: usize, widths: &[usize], line_end: &[u8]) -> Vec<u8> {
    let mut bytes = Vec::new();
    let mut word = 0;
    for width in widths.iter().cycle() {
        if bytes.len() >= length {
            break;
        }
        bytes.extend(line(*width, &mut word));
        bytes.extend(line_end);
    }
    bytes
}

fn line(width: usize, word: &mut usize) -> Vec<u8> {
    let mut line = Vec::new();
    while line.len() < width {
        line.extend(WORDS[*word % WORDS.len()].as_bytes());
        line.push(b' ');
        *word += 1;
    }
    line.truncate(width);
    line
}
