//! The two editions of the option, June's and September's, and their codes.
//! A meaning is called by its September code throughout.

use crate::command::code::{self, *};
use crate::variant::Variant;

#[derive(Clone, Copy, Debug, Default, PartialEq, Eq)]
pub enum Edition {
    June,
    #[default]
    September,
}

/// What June's codes mean, from 1 on.
const JUNE: [u8; 40] = [
    EDIT_FACILITIES,
    ERASE_FACILITIES,
    TRANSMIT_FACILITIES,
    FORMAT_FACILITIES,
    MOVE_CURSOR,
    SKIP_TO_LINE,
    SKIP_TO_CHAR,
    UP,
    DOWN,
    LEFT,
    RIGHT,
    HOME,
    LINE_INSERT,
    LINE_DELETE,
    CHAR_INSERT,
    CHAR_DELETE,
    READ_CURSOR,
    CURSOR_POSITION,
    REVERSE_TAB,
    TRANSMIT_SCREEN,
    TRANSMIT_UNPROTECTED,
    TRANSMIT_LINE,
    TRANSMIT_FIELD,
    TRANSMIT_REST_OF_SCREEN,
    TRANSMIT_REST_OF_LINE,
    TRANSMIT_REST_OF_FIELD,
    DATA_TRANSMIT,
    ERASE_SCREEN,
    ERASE_LINE,
    ERASE_FIELD,
    ERASE_REST_OF_SCREEN,
    ERASE_REST_OF_LINE,
    ERASE_REST_OF_FIELD,
    ERASE_UNPROTECTED,
    FORMAT_DATA,
    REPEAT,
    SUPPRESS_PROTECTION,
    FIELD_SEPARATOR,
    FN,
    ERROR,
];

impl Edition {
    pub const ALL: [Edition; 2] = [Edition::June, Edition::September];

    /// The edition that opening names, if there is one.
    pub fn named(number: u16) -> Option<Edition> {
        Edition::ALL.into_iter().find(|one| one.number() == number)
    }

    pub fn number(self) -> u16 {
        match self {
            Edition::June => 731,
            Edition::September => 732,
        }
    }

    /// What a code means; `code::NONE` for one that is not listed.
    pub fn meaning(self, code: u8) -> u8 {
        match (self, code) {
            (Edition::June, 1..=40) => JUNE[usize::from(code) - 1],
            (Edition::September, 1..=41) => code,
            _ => code::NONE,
        }
    }

    /// The code of a meaning, none where the edition lacks it.
    pub fn code(self, meaning: u8) -> Option<u8> {
        (1..=41).find(|&code| self.meaning(code) == meaning)
    }

    /// A received code's meaning, as a variant has it.
    pub fn read(self, code: u8, variant: Variant) -> u8 {
        match (self, variant, code) {
            (Edition::September, ..) => self.meaning(code),
            (_, Variant::EditionIgnored | Variant::JuneReadsSeptember, _) => {
                Edition::September.meaning(code)
            }
            (_, Variant::JuneReadsHigher, 28..=41) => code - 1,
            (_, Variant::JuneModified, 27) => TRANSMIT_MODIFIED,
            (_, Variant::June41Known, 41) => ERROR,
            (_, Variant::June40Unknown, 40) => code::NONE,
            _ => self.meaning(code),
        }
    }

    /// A sent meaning's code, as a variant has it.
    pub fn write(self, meaning: u8, variant: Variant) -> u8 {
        let september = match variant {
            Variant::EditionIgnored | Variant::JuneWritesSeptember => meaning,
            Variant::JuneError41 => ERROR,
            Variant::JunePreface28 => DATA_TRANSMIT,
            Variant::JuneSeparator39 => FIELD_SEPARATOR,
            Variant::JuneFn40 => FN,
            Variant::JuneSuppress38 => SUPPRESS_PROTECTION,
            _ => code::NONE,
        };
        let own = self.code(meaning).filter(|_| meaning != september);
        own.unwrap_or(meaning)
    }
}
