//! Facilities: the maps of both sides, what they agree on, and which bit
//! governs which command.

mod agreed;
mod mistaken;
mod wrong;

use crate::command::code;
use crate::edition::Edition;
use crate::variant::Variant;
pub use agreed::Agreed;

/// The five map bytes, in the order in which an answer shows them.
#[derive(Clone, Copy, Debug, PartialEq, Eq)]
pub enum Map {
    Edit,
    Erase,
    Transmit,
    Format0,
    Format1,
}

pub const MAPS: usize = 5;

/// The terminal's own maps; June has no bit for TRANSMIT MODIFIED.
pub const OWN: [u8; MAPS] = [126, 0b1_1111, 63, 208, 121];
const JUNE_FORMAT_0: u8 = 144;

/// One of them, as a variant has it.
pub fn own(place: usize, edition: Edition, variant: Variant) -> u8 {
    let june = edition == Edition::June;
    match (variant, place) {
        (Variant::EditMapOld, 0) => 54,
        (Variant::FormatMapOld, 3) => 144,
        (Variant::JuneMap208 | Variant::EditionIgnored, 3) => OWN[place],
        (Variant::JuneMap16, 3) if june => 16,
        (_, 3) if june => JUNE_FORMAT_0,
        _ => OWN[place],
    }
}

/// A facility: a map byte, and a bit of it numbered from the right.
#[derive(Clone, Copy, Debug, PartialEq, Eq)]
pub struct Bit(pub Map, pub u8);

impl Bit {
    pub fn mask(self) -> u8 {
        1 << self.1
    }
}

/// The facilities that commands need, and some that none does.
pub mod bit {
    use super::{Bit, Map};

    pub const TOROIDAL: Bit = Bit(Map::Edit, 6);
    pub const INCREMENTAL: Bit = Bit(Map::Edit, 5);
    pub const READ_CURSOR: Bit = Bit(Map::Edit, 4);
    pub const LINES: Bit = Bit(Map::Edit, 3);
    pub const CHARS: Bit = Bit(Map::Edit, 2);
    pub const BACK_TAB: Bit = Bit(Map::Edit, 1);
    pub const POSITIVE: Bit = Bit(Map::Edit, 0);

    pub const ERASE_FIELD: Bit = Bit(Map::Erase, 4);
    pub const ERASE_LINE: Bit = Bit(Map::Erase, 3);
    pub const ERASE_REST_OF_SCREEN: Bit = Bit(Map::Erase, 2);
    pub const ERASE_REST_OF_LINE: Bit = Bit(Map::Erase, 1);
    pub const ERASE_REST_OF_FIELD: Bit = Bit(Map::Erase, 0);

    pub const DATA_TRANSMIT: Bit = Bit(Map::Transmit, 5);
    pub const TRANSMIT_LINE: Bit = Bit(Map::Transmit, 4);
    pub const TRANSMIT_FIELD: Bit = Bit(Map::Transmit, 3);
    pub const TRANSMIT_REST_OF_SCREEN: Bit = Bit(Map::Transmit, 2);
    pub const TRANSMIT_REST_OF_LINE: Bit = Bit(Map::Transmit, 1);
    pub const TRANSMIT_REST_OF_FIELD: Bit = Bit(Map::Transmit, 0);

    pub const FN: Bit = Bit(Map::Format0, 7);
    pub const MODIFIED: Bit = Bit(Map::Format0, 6);
    pub const REPEAT: Bit = Bit(Map::Format0, 4);
    pub const PROTECTION_ON_OFF: Bit = Bit(Map::Format1, 6);
    pub const PROTECTION: Bit = Bit(Map::Format1, 5);
    pub const ALPHABETIC: Bit = Bit(Map::Format1, 4);
    pub const NUMERIC: Bit = Bit(Map::Format1, 3);
}

/// Which bit governs which command. Those that are not here have none.
const GOVERNED: [(u8, Bit); 27] = [
    (code::SKIP_TO_LINE, bit::TOROIDAL),
    (code::SKIP_TO_CHAR, bit::TOROIDAL),
    (code::UP, bit::INCREMENTAL),
    (code::DOWN, bit::INCREMENTAL),
    (code::LEFT, bit::INCREMENTAL),
    (code::RIGHT, bit::INCREMENTAL),
    (code::LINE_INSERT, bit::LINES),
    (code::LINE_DELETE, bit::LINES),
    (code::CHAR_INSERT, bit::CHARS),
    (code::CHAR_DELETE, bit::CHARS),
    (code::READ_CURSOR, bit::READ_CURSOR),
    (code::REVERSE_TAB, bit::BACK_TAB),
    (code::TRANSMIT_UNPROTECTED, bit::PROTECTION),
    (code::TRANSMIT_LINE, bit::TRANSMIT_LINE),
    (code::TRANSMIT_FIELD, bit::TRANSMIT_FIELD),
    (code::TRANSMIT_REST_OF_SCREEN, bit::TRANSMIT_REST_OF_SCREEN),
    (code::TRANSMIT_REST_OF_LINE, bit::TRANSMIT_REST_OF_LINE),
    (code::TRANSMIT_REST_OF_FIELD, bit::TRANSMIT_REST_OF_FIELD),
    (code::TRANSMIT_MODIFIED, bit::MODIFIED),
    (code::ERASE_LINE, bit::ERASE_LINE),
    (code::ERASE_FIELD, bit::ERASE_FIELD),
    (code::ERASE_REST_OF_SCREEN, bit::ERASE_REST_OF_SCREEN),
    (code::ERASE_REST_OF_LINE, bit::ERASE_REST_OF_LINE),
    (code::ERASE_REST_OF_FIELD, bit::ERASE_REST_OF_FIELD),
    (code::ERASE_UNPROTECTED, bit::PROTECTION),
    (code::REPEAT, bit::REPEAT),
    (code::SUPPRESS_PROTECTION, bit::PROTECTION_ON_OFF),
];

/// The bit that governs a command, if one does.
pub fn governing(code: u8, variant: Variant) -> Option<Bit> {
    let wrong = mistaken::rows(variant).iter();
    let mut rows = wrong.chain(&GOVERNED);
    rows.find(|row| row.0 == code).map(|row| row.1)
}

/// The maps that a facility command is about; none for other commands.
pub fn class(code: u8) -> std::ops::Range<usize> {
    match code {
        code::EDIT_FACILITIES => 0..1,
        code::ERASE_FACILITIES => 1..2,
        code::TRANSMIT_FACILITIES => 2..3,
        code::FORMAT_FACILITIES => 3..5,
        _ => 0..0,
    }
}
