//! Rows of the table of governing bits as wrong variants have them.

use super::bit::*;
use super::{Bit, Map};
use crate::command::code;
use crate::variant::Variant;

/// The rows that take the right ones' places.
pub fn rows(variant: Variant) -> &'static [(u8, Bit)] {
    let found = ROWS.iter().find(|row| row.0 == variant);
    found.map_or(&[], |row| row.1)
}

const ROWS: &[(Variant, &[(u8, Bit)])] = &[
    // A neighbour's bit, in the edit map.
    (
        Variant::Bit8ReadCursor,
        &[
            (code::UP, READ_CURSOR),
            (code::DOWN, READ_CURSOR),
            (code::LEFT, READ_CURSOR),
            (code::RIGHT, READ_CURSOR),
        ],
    ),
    (
        Variant::Bit17Incremental,
        &[(code::READ_CURSOR, INCREMENTAL)],
    ),
    (
        Variant::Bit6Incremental,
        &[
            (code::SKIP_TO_LINE, INCREMENTAL),
            (code::SKIP_TO_CHAR, INCREMENTAL),
        ],
    ),
    (Variant::Bit6Positive, &[(code::SKIP_TO_LINE, POSITIVE)]),
    (
        Variant::Bit8Toroidal,
        &[(code::UP, TOROIDAL), (code::DOWN, TOROIDAL)],
    ),
    (
        Variant::Bit13Chars,
        &[(code::LINE_INSERT, CHARS), (code::LINE_DELETE, CHARS)],
    ),
    (
        Variant::Bit13ReadCursor,
        &[
            (code::LINE_INSERT, READ_CURSOR),
            (code::LINE_DELETE, READ_CURSOR),
        ],
    ),
    (Variant::Bit14Chars, &[(code::LINE_DELETE, CHARS)]),
    (Variant::Bit17Lines, &[(code::READ_CURSOR, LINES)]),
    (
        Variant::Bit15BackTab,
        &[(code::CHAR_INSERT, BACK_TAB), (code::CHAR_DELETE, BACK_TAB)],
    ),
    (
        Variant::Bit15Lines,
        &[(code::CHAR_INSERT, LINES), (code::CHAR_DELETE, LINES)],
    ),
    (Variant::Bit16BackTab, &[(code::CHAR_DELETE, BACK_TAB)]),
    (Variant::Bit19Chars, &[(code::REVERSE_TAB, CHARS)]),
    (Variant::Bit19Positive, &[(code::REVERSE_TAB, POSITIVE)]),
    // In the erase map.
    (
        Variant::EraseBitsByCode,
        &[
            (code::ERASE_LINE, ERASE_FIELD),
            (code::ERASE_FIELD, ERASE_LINE),
        ],
    ),
    (
        Variant::EraseBitsReversed,
        &[
            (code::ERASE_FIELD, ERASE_REST_OF_FIELD),
            (code::ERASE_LINE, ERASE_REST_OF_LINE),
            (code::ERASE_REST_OF_LINE, ERASE_LINE),
            (code::ERASE_REST_OF_FIELD, ERASE_FIELD),
        ],
    ),
    (Variant::Bit30Field, &[(code::ERASE_LINE, ERASE_FIELD)]),
    (
        Variant::Bit30Screen,
        &[(code::ERASE_LINE, ERASE_REST_OF_SCREEN)],
    ),
    (Variant::Bit31Line, &[(code::ERASE_FIELD, ERASE_LINE)]),
    (
        Variant::Bit32Line,
        &[(code::ERASE_REST_OF_SCREEN, ERASE_LINE)],
    ),
    (
        Variant::Bit32RestOfLine,
        &[(code::ERASE_REST_OF_SCREEN, ERASE_REST_OF_LINE)],
    ),
    (
        Variant::Bit33Screen,
        &[(code::ERASE_REST_OF_LINE, ERASE_REST_OF_SCREEN)],
    ),
    (
        Variant::Bit33Field,
        &[(code::ERASE_REST_OF_LINE, ERASE_REST_OF_FIELD)],
    ),
    (
        Variant::Bit34Line,
        &[(code::ERASE_REST_OF_FIELD, ERASE_REST_OF_LINE)],
    ),
    (
        Variant::Bit35EraseField,
        &[(code::ERASE_UNPROTECTED, ERASE_FIELD)],
    ),
    // In the transmit map.
    (
        Variant::TransmitBitsShifted,
        &[
            (code::TRANSMIT_LINE, DATA_TRANSMIT),
            (code::TRANSMIT_FIELD, TRANSMIT_LINE),
            (code::TRANSMIT_REST_OF_SCREEN, TRANSMIT_FIELD),
            (code::TRANSMIT_REST_OF_LINE, TRANSMIT_REST_OF_SCREEN),
            (code::TRANSMIT_REST_OF_FIELD, TRANSMIT_REST_OF_LINE),
        ],
    ),
    (
        Variant::Bit22DataTransmit,
        &[(code::TRANSMIT_LINE, DATA_TRANSMIT)],
    ),
    (
        Variant::Bit22Field,
        &[(code::TRANSMIT_LINE, TRANSMIT_FIELD)],
    ),
    (Variant::Bit23Line, &[(code::TRANSMIT_FIELD, TRANSMIT_LINE)]),
    (
        Variant::Bit23Screen,
        &[(code::TRANSMIT_FIELD, TRANSMIT_REST_OF_SCREEN)],
    ),
    (
        Variant::Bit24Field,
        &[(code::TRANSMIT_REST_OF_SCREEN, TRANSMIT_FIELD)],
    ),
    (
        Variant::Bit24Line,
        &[(code::TRANSMIT_REST_OF_SCREEN, TRANSMIT_REST_OF_LINE)],
    ),
    (
        Variant::Bit25Screen,
        &[(code::TRANSMIT_REST_OF_LINE, TRANSMIT_REST_OF_SCREEN)],
    ),
    (
        Variant::Bit25Field,
        &[(code::TRANSMIT_REST_OF_LINE, TRANSMIT_REST_OF_FIELD)],
    ),
    (
        Variant::Bit26Line,
        &[(code::TRANSMIT_REST_OF_FIELD, TRANSMIT_REST_OF_LINE)],
    ),
    (
        Variant::Bit21DataTransmit,
        &[(code::TRANSMIT_UNPROTECTED, DATA_TRANSMIT)],
    ),
    // In the format map.
    (
        Variant::Bit21OnOff,
        &[(code::TRANSMIT_UNPROTECTED, PROTECTION_ON_OFF)],
    ),
    (
        Variant::Bit21Alphabetic,
        &[(code::TRANSMIT_UNPROTECTED, ALPHABETIC)],
    ),
    (
        Variant::Bit35OnOff,
        &[(code::ERASE_UNPROTECTED, PROTECTION_ON_OFF)],
    ),
    (
        Variant::Bit38Protection,
        &[(code::SUPPRESS_PROTECTION, PROTECTION)],
    ),
    (
        Variant::Bit38Bit7,
        &[(code::SUPPRESS_PROTECTION, Bit(Map::Format1, 7))],
    ),
    (
        Variant::Bit37Blinking,
        &[(code::REPEAT, Bit(Map::Format0, 3))],
    ),
    (Variant::Bit37SecondByte, &[(code::REPEAT, ALPHABETIC)]),
    (Variant::Bit37Fn, &[(code::REPEAT, FN)]),
    (Variant::Bit27Fn, &[(code::TRANSMIT_MODIFIED, FN)]),
    (Variant::Bit27Repeat, &[(code::TRANSMIT_MODIFIED, REPEAT)]),
    (
        Variant::Bit27LightPen,
        &[(code::TRANSMIT_MODIFIED, Bit(Map::Format0, 5))],
    ),
    (
        Variant::Bit27OnOff,
        &[(code::TRANSMIT_MODIFIED, PROTECTION_ON_OFF)],
    ),
    (
        Variant::Bit27Protection,
        &[(code::TRANSMIT_MODIFIED, PROTECTION)],
    ),
    (
        Variant::Bit27DataTransmit,
        &[(code::TRANSMIT_MODIFIED, DATA_TRANSMIT)],
    ),
    (Variant::Bit37Modified, &[(code::REPEAT, MODIFIED)]),
    // Commands that need no facility.
    (Variant::MoveGoverned, &[(code::MOVE_CURSOR, INCREMENTAL)]),
    (Variant::MovePositive, &[(code::MOVE_CURSOR, POSITIVE)]),
    (Variant::HomeGoverned, &[(code::HOME, INCREMENTAL)]),
    (
        Variant::ScreenGoverned,
        &[(code::TRANSMIT_SCREEN, DATA_TRANSMIT)],
    ),
    (
        Variant::EraseScreenGoverned,
        &[(code::ERASE_SCREEN, ERASE_REST_OF_SCREEN)],
    ),
    (Variant::FormatGoverned, &[(code::FORMAT_DATA, PROTECTION)]),
    (Variant::ErrorGoverned, &[(code::ERROR, FN)]),
];
