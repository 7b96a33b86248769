//! Subcommands: their meanings, the check order, and which does what.

use crate::cursor::on_screen;
use crate::desk::Desk;
use crate::edition::Edition;
use crate::facilities::{class, governing, own};
use crate::format;
use crate::size::{X, Y};
use crate::variant::Variant;
use crate::watch::Event;

/// Each meaning, called by its September code.
pub mod code {
    /// Stands for whatever an edition does not list: 0 is in neither list.
    pub const NONE: u8 = 0;
    pub const EDIT_FACILITIES: u8 = 1;
    pub const ERASE_FACILITIES: u8 = 2;
    pub const TRANSMIT_FACILITIES: u8 = 3;
    pub const FORMAT_FACILITIES: u8 = 4;
    pub const MOVE_CURSOR: u8 = 5;
    pub const SKIP_TO_LINE: u8 = 6;
    pub const SKIP_TO_CHAR: u8 = 7;
    pub const UP: u8 = 8;
    pub const DOWN: u8 = 9;
    pub const LEFT: u8 = 10;
    pub const RIGHT: u8 = 11;
    pub const HOME: u8 = 12;
    pub const LINE_INSERT: u8 = 13;
    pub const LINE_DELETE: u8 = 14;
    pub const CHAR_INSERT: u8 = 15;
    pub const CHAR_DELETE: u8 = 16;
    pub const READ_CURSOR: u8 = 17;
    pub const CURSOR_POSITION: u8 = 18;
    pub const REVERSE_TAB: u8 = 19;
    pub const TRANSMIT_SCREEN: u8 = 20;
    pub const TRANSMIT_UNPROTECTED: u8 = 21;
    pub const TRANSMIT_LINE: u8 = 22;
    pub const TRANSMIT_FIELD: u8 = 23;
    pub const TRANSMIT_REST_OF_SCREEN: u8 = 24;
    pub const TRANSMIT_REST_OF_LINE: u8 = 25;
    pub const TRANSMIT_REST_OF_FIELD: u8 = 26;
    pub const TRANSMIT_MODIFIED: u8 = 27;
    pub const DATA_TRANSMIT: u8 = 28;
    pub const ERASE_SCREEN: u8 = 29;
    pub const ERASE_LINE: u8 = 30;
    pub const ERASE_FIELD: u8 = 31;
    pub const ERASE_REST_OF_SCREEN: u8 = 32;
    pub const ERASE_REST_OF_LINE: u8 = 33;
    pub const ERASE_REST_OF_FIELD: u8 = 34;
    pub const ERASE_UNPROTECTED: u8 = 35;
    pub const FORMAT_DATA: u8 = 36;
    pub const REPEAT: u8 = 37;
    pub const SUPPRESS_PROTECTION: u8 = 38;
    pub const FIELD_SEPARATOR: u8 = 39;
    pub const FN: u8 = 40;
    pub const ERROR: u8 = 41;
}

pub mod error {
    pub const NOT_AGREED: u8 = 1;
    pub const UNKNOWN_CODE: u8 = 2;
    pub const OFF_SCREEN: u8 = 3;
    pub const TOO_MANY: u8 = 9;
    pub const TOO_FEW: u8 = 10;
    pub const BAD_VALUE: u8 = 11;
    pub const BAD_MAP: u8 = 12;
}

/// How many parameters a command takes; none for what is not obeyed.
pub fn parameter_count(meaning: u8) -> Option<usize> {
    match meaning {
        code::EDIT_FACILITIES..=code::TRANSMIT_FACILITIES | code::SUPPRESS_PROTECTION => Some(1),
        code::SKIP_TO_LINE | code::SKIP_TO_CHAR => Some(1),
        code::FORMAT_FACILITIES | code::MOVE_CURSOR | code::REPEAT | code::ERROR => Some(2),
        code::FORMAT_DATA => Some(4),
        code::UP..=code::READ_CURSOR => Some(0),
        code::REVERSE_TAB..=code::TRANSMIT_MODIFIED => Some(0),
        code::ERASE_SCREEN..=code::ERASE_UNPROTECTED => Some(0),
        _ => None,
    }
}

impl Desk<'_> {
    /// A subnegotiation's bytes after the option byte.
    pub fn obey(&mut self, held: &[u8]) {
        let Some((&code, parameters)) = held.split_first() else {
            return match self.variant {
                Variant::NoCommandError2 => self.error(0, error::UNKNOWN_CODE, &[]),
                _ => self.error(0, error::TOO_FEW, &[]),
            };
        };
        let meaning = self.edition.read(code, self.variant);
        match self.check(code, meaning, parameters) {
            Ok(()) => self.act(meaning, parameters),
            Err(error::OFF_SCREEN) => self.limit(code, parameters),
            Err(number) => {
                self.error(code, number, parameters);
                self.act_all_the_same(meaning, number, parameters);
            }
        }
    }

    fn act(&mut self, meaning: u8, parameters: &[u8]) {
        self.saw(Event::Executed(meaning, parameters));
        self.execute(meaning, parameters);
    }

    /// The number of the ERROR to draw: code, then facility, then count,
    /// then values. Only wrong variants go by the code again.
    fn check(&self, code: u8, meaning: u8, parameters: &[u8]) -> Result<(), u8> {
        if self.varies(Variant::CountBeforeCode) && parameters.len() > 4 {
            return Err(error::TOO_MANY);
        }
        let known = self.check_code(code, meaning)?;
        let governed = self.by(Variant::JuneBitsByCode, code, meaning);
        let late = [Variant::Error1AfterCount, Variant::Error1AfterValues];
        if !late.contains(&self.variant) {
            self.check_agreed(governed, parameters)?;
        }
        if self.varies(Variant::ValuesBeforeCount) && parameters.len() > known {
            self.check_values(meaning, &parameters[..known])?;
        }
        self.check_count(known, parameters.len())?;
        if self.varies(Variant::Error1AfterCount) {
            self.check_agreed(governed, parameters)?;
        }
        let valued = self.by(Variant::JuneValuesByCode, code, meaning);
        self.check_values(valued, parameters)?;
        if self.varies(Variant::Error1AfterValues) {
            self.check_agreed(governed, parameters)?;
        }
        Ok(())
    }

    /// The meaning, but for a variant that takes the code for one.
    fn by(&self, variant: Variant, code: u8, meaning: u8) -> u8 {
        match self.varies(variant) {
            true => code,
            false => meaning,
        }
    }

    /// How many parameters the command takes, if it is known.
    fn check_code(&self, code: u8, meaning: u8) -> Result<usize, u8> {
        if self.forgotten(meaning) {
            return Err(error::UNKNOWN_CODE);
        }
        let early = self.varies(Variant::Error1BeforeCode) && self.agreed.nothing();
        let known = parameter_count(meaning).ok_or(match early {
            true => error::NOT_AGREED,
            false => error::UNKNOWN_CODE,
        })?;
        let counted = self.by(Variant::JuneCountsByCode, code, meaning);
        Ok(match (self.variant, self.edition, meaning) {
            (Variant::JuneFormatThree, Edition::June, code::FORMAT_DATA) => 3,
            _ => parameter_count(counted).unwrap_or(known),
        })
    }

    /// A known command that a wrong variant does not know.
    fn forgotten(&self, meaning: u8) -> bool {
        match self.variant {
            Variant::Error41Unknown => meaning == code::ERROR,
            Variant::SkipsUnknown => matches!(meaning, code::SKIP_TO_LINE | code::SKIP_TO_CHAR),
            Variant::ModifiedUnknown => meaning == code::TRANSMIT_MODIFIED,
            Variant::LinesUnknown => matches!(meaning, code::LINE_INSERT | code::LINE_DELETE),
            _ => false,
        }
    }

    /// Whether the facility that the command needs is agreed.
    fn check_agreed(&self, meaning: u8, parameters: &[u8]) -> Result<(), u8> {
        let Some(bit) = governing(meaning, self.variant) else {
            return self.check_attributes(meaning, parameters);
        };
        match self.agreed.has(bit) || self.excused(meaning, parameters, bit) {
            false => Err(match self.variant {
                Variant::Error1Is2 => error::UNKNOWN_CODE,
                _ => error::NOT_AGREED,
            }),
            true => self.check_preface(meaning),
        }
    }

    fn check_count(&self, known: usize, count: usize) -> Result<(), u8> {
        let (too_few, too_many) = match self.variant {
            Variant::Errors9And10Exchanged => (error::TOO_MANY, error::TOO_FEW),
            _ => (error::TOO_FEW, error::TOO_MANY),
        };
        match count {
            count if count < known => Err(too_few),
            count if count > known => Err(too_many),
            _ => Ok(()),
        }
    }

    /// Of the right number of parameters.
    fn check_values(&self, meaning: u8, parameters: &[u8]) -> Result<(), u8> {
        match (meaning, parameters) {
            (code::MOVE_CURSOR, &[x, y]) if !on_screen(&self.screen, X(x), Y(y)) => {
                Err(error::OFF_SCREEN)
            }
            (code::SKIP_TO_LINE, &[y]) if self.skips_off(y, self.screen.size.n) => {
                Err(error::BAD_VALUE)
            }
            (code::SKIP_TO_CHAR, &[x]) if self.skips_off(x, self.screen.size.m) => {
                Err(error::BAD_VALUE)
            }
            (code::FORMAT_DATA, &[map, more, high, low]) => {
                format::check(&self.screen, [map, more], [high, low])
            }
            (code::REPEAT, &[count, byte]) => format::check_repeat(count, byte, self.variant),
            (code::SUPPRESS_PROTECTION, &[verb]) => format::check_suppress(verb),
            _ => Ok(()),
        }
    }

    /// A skip off the screen is right; only a wrong variant minds.
    fn skips_off(&self, to: u8, length: u8) -> bool {
        self.varies(Variant::SkipErrors) && to >= length
    }

    /// MOVE CURSOR off the screen: the one command that acts although it
    /// draws an ERROR.
    fn limit(&mut self, code: u8, parameters: &[u8]) {
        let &[x, y] = parameters else { return };
        self.saw(Event::Limited(X(x), Y(y)));
        if !self.varies(Variant::MoveLimitsInSilence) {
            self.error(code, error::OFF_SCREEN, parameters);
        }
        let both = x >= self.screen.size.m && y >= self.screen.size.n;
        if both && self.varies(Variant::MoveTwoErrors) {
            self.error(code, error::OFF_SCREEN, parameters);
        }
        if !self.varies(Variant::MoveErrorStays) {
            self.screen.move_to(X(x), Y(y));
        }
    }

    /// Names the command as it was received.
    fn error(&mut self, code: u8, number: u8, parameters: &[u8]) {
        self.saw(Event::Error(code, number, parameters));
        match (number, self.variant) {
            (error::UNKNOWN_CODE, Variant::UnknownInSilence) => return,
            (error::NOT_AGREED, Variant::Error1InSilence) => return,
            _ => {}
        }
        let (code, number) = self.june_error(code, number);
        self.reply.subcommand(code::ERROR, &[code, number]);
    }

    /// An ERROR of June's as wrong variants have it.
    fn june_error(&self, code: u8, number: u8) -> (u8, u8) {
        match (self.variant, self.edition) {
            (Variant::JuneErrorNamesMeaning, Edition::June) if number != error::UNKNOWN_CODE => {
                (self.edition.meaning(code), number)
            }
            (Variant::JuneErrorNumbers, Edition::June) if number >= error::TOO_MANY => {
                (code, number - 1)
            }
            _ => (code, number),
        }
    }

    pub fn execute(&mut self, meaning: u8, parameters: &[u8]) {
        match (meaning, parameters) {
            (code::EDIT_FACILITIES..=code::FORMAT_FACILITIES, maps) => {
                self.facilities(meaning, maps)
            }
            (code::MOVE_CURSOR, &[x, y]) => self.screen.move_to(X(x), Y(y)),
            (code::SKIP_TO_LINE, &[y]) => self.screen.skip_to_line(Y(y)),
            (code::SKIP_TO_CHAR, &[x]) => self.screen.skip_to_char(X(x)),
            (code::UP, _) => self.screen.up(),
            (code::DOWN, _) => self.screen.down(),
            (code::LEFT, _) => self.screen.left(),
            (code::RIGHT, _) => self.screen.right(),
            (code::HOME, _) => self.screen.home(),
            (code::LINE_INSERT, _) => self.screen.line_insert(),
            (code::LINE_DELETE, _) => self.screen.line_delete(),
            (code::CHAR_INSERT, _) => self.screen.insert(),
            (code::CHAR_DELETE, _) => self.screen.delete(Variant::DeleteUnmarked),
            (code::READ_CURSOR, _) => self.read_cursor(),
            (code::REVERSE_TAB, _) => self.screen.reverse_tab(),
            (code::TRANSMIT_SCREEN..=code::TRANSMIT_MODIFIED, _) => self.transmit(meaning),
            (code::ERASE_SCREEN..=code::ERASE_UNPROTECTED, _) => self.screen.erase(meaning),
            (code::FORMAT_DATA, &[map, _, high, low]) => self.screen.format(map, [high, low]),
            (code::REPEAT, &[count, byte]) => self.screen.repeat(count, byte),
            (code::SUPPRESS_PROTECTION, &[verb]) => self.suppress(verb),
            // ERROR from the host has no effect.
            _ => {}
        }
    }

    /// A facility command's maps are met with the terminal's own.
    pub fn note(&mut self, meaning: u8, maps: &[u8]) {
        let edition = match self.variant {
            Variant::JuneAgrees208 => Edition::September,
            _ => self.edition,
        };
        self.agreed.receive(meaning, maps, edition, self.variant);
    }

    /// 1 to 4: noted, and answered with the terminal's own maps.
    fn facilities(&mut self, meaning: u8, maps: &[u8]) {
        self.note(meaning, maps);
        let told = match self.variant {
            Variant::JuneTells208 => Edition::September,
            _ => self.edition,
        };
        let own = |place| own(place, told, self.variant);
        let mut answer: Vec<u8> = class(meaning).map(own).collect();
        if self.varies(Variant::EraseMapShifted) && meaning == code::ERASE_FACILITIES {
            answer[0] <<= 1;
        }
        self.reply.subcommand(meaning, &answer);
    }

    fn read_cursor(&mut self) {
        let cursor = self.screen.cursor;
        self.reply
            .subcommand(code::CURSOR_POSITION, &[cursor.x.0, cursor.y.0]);
    }
}
