//! Tells situations from the screen as it is before each event.

use super::situation::Situation as S;
use super::Cover;
use crate::class;
use crate::command::code;
use crate::reply::DET;
use crate::screen::{protection, Screen};
use crate::size::{X, Y};
use crate::telnet::{Sub, Verb, IAC};
use crate::variant::Variant;

impl Cover {
    pub fn negotiation(&mut self, verb: Verb, option: u8, screen: &Screen, det: bool) {
        let suppressed = screen.suppressed;
        self.count(match (verb, option == DET, det) {
            (Verb::Do, true, false) => S::Do20Off,
            (Verb::Do, true, true) => S::Do20On,
            (Verb::Do, false, _) => S::DoOther,
            (Verb::Dont, true, true) if suppressed => S::Dont20Suppressed,
            (Verb::Dont, true, true) => S::Dont20On,
            (Verb::Dont, true, false) if suppressed => S::Dont20OffSuppressed,
            (Verb::Dont, true, false) => S::Dont20Off,
            (Verb::Dont, false, _) => S::DontOther,
            (Verb::Will, true, _) => S::Will20,
            (Verb::Will, false, _) => S::WillOther,
            (Verb::Wont, true, _) => S::Wont20,
            (Verb::Wont, false, _) => S::WontOther,
        });
        self.count_if(verb == Verb::Do && option == IAC, S::Do255);
        self.count_if(verb == Verb::Will && option == IAC, S::Will255);
    }

    pub fn subnegotiation(&mut self, sub: &Sub, det: bool) {
        let (option, count) = (sub.option, sub.held.count);
        let ours = option == Some(DET);
        self.count_if(option.is_none(), S::NoOption);
        self.count_if(option.is_some() && !ours, S::OtherOption);
        self.count_if(option == Some(IAC), S::Option255);
        self.count_if(ours && !det, S::DetOff);
        self.count_if(ours && det && count == 0, S::NoCommand);
        self.count_if(count == 6, S::SixHeld);
    }

    pub fn data(&mut self, byte: u8, screen: &Screen) {
        let cursor = screen.cursor;
        match byte {
            32..=126 => self.host_character(byte, screen),
            13 => self.count(S::Cr),
            10 if cursor.y == Y(screen.size.n - 1) => self.count(S::LfLast),
            10 => self.count(S::Lf),
            8 if cursor.x == X(0) => self.count(S::BsStart),
            8 => self.count(S::Bs),
            255 => self.count(S::Data255),
            _ => self.count(S::IdleData),
        }
    }

    fn host_character(&mut self, byte: u8, screen: &Screen) {
        let at = screen.at();
        if screen.guarded(at) {
            return self.count(S::HostDropped);
        }
        self.count(S::HostWritten);
        self.count_if(at + 1 == screen.cells(), S::HostLast);
        self.count_if(screen.protected(at), S::HostSuppressed);
        self.count_if(
            !class_takes(screen, byte) && !screen.suppressed,
            S::HostClass,
        );
    }

    pub fn limited(&mut self, x: X, y: Y, screen: &Screen) {
        self.count(match (x.0 >= screen.size.m, y.0 >= screen.size.n) {
            (true, true) => S::LimitedBoth,
            (true, false) => S::LimitedX,
            _ => S::LimitedY,
        });
    }

    /// A command that is about to be executed.
    pub fn command(&mut self, code: u8, parameters: &[u8], screen: &Screen) {
        match code {
            code::SKIP_TO_LINE => self.skip_to_line(parameters, screen),
            code::SKIP_TO_CHAR => self.skip_to_char(parameters, screen),
            code::LINE_INSERT | code::LINE_DELETE => self.lines(screen),
            code::UP..=code::RIGHT => self.step(code, screen),
            code::HOME => self.home(screen),
            code::CHAR_INSERT | code::CHAR_DELETE => self.shift(screen),
            code::REVERSE_TAB => self.reverse_tab(screen),
            code::TRANSMIT_UNPROTECTED => self.transmit_unprotected(screen),
            code::TRANSMIT_LINE => self.transmit_line(screen),
            code::TRANSMIT_FIELD | code::TRANSMIT_REST_OF_FIELD => self.field(code, screen),
            code::ERASE_LINE..=code::ERASE_REST_OF_FIELD => self.erase(screen),
            code::ERASE_UNPROTECTED => self.erase_unprotected(screen),
            code::FORMAT_DATA => self.format(parameters, screen),
            code::REPEAT => self.repeat(parameters, screen),
            code::SUPPRESS_PROTECTION => self.suppress(parameters, screen),
            _ => {}
        }
    }

    fn step(&mut self, code: u8, screen: &Screen) {
        let (cursor, size) = (screen.cursor, screen.size);
        self.count_if(code == code::UP && cursor.y == Y(0), S::EdgeUp);
        self.count_if(code == code::DOWN && cursor.y == Y(size.n - 1), S::EdgeDown);
        self.count_if(code == code::LEFT && cursor.x == X(0), S::EdgeLeft);
        self.count_if(
            code == code::RIGHT && cursor.x == X(size.m - 1),
            S::EdgeRight,
        );
    }

    fn home(&mut self, screen: &Screen) {
        let some = screen.unprotected_fields().next().is_some();
        let first = screen.protected(0);
        self.count_if(first && some && !screen.suppressed, S::HomeSought);
        self.count_if(first && some && screen.suppressed, S::HomeSuppressed);
        self.count_if(!some, S::HomeNone);
    }

    fn shift(&mut self, screen: &Screen) {
        let at = screen.at();
        let (field, line) = (screen.field(at).end, screen.line().end);
        let guarded = screen.guarded(at);
        self.count_if(guarded, S::ShiftGuarded);
        self.count_if(screen.suppressed && field < line, S::ShiftSuppressed);
        let in_effect = !guarded && !screen.suppressed;
        self.count_if(in_effect && field < line, S::ShiftToField);
        self.count_if(in_effect && field > line, S::ShiftToLine);
    }

    fn reverse_tab(&mut self, screen: &Screen) {
        let at = screen.at();
        let found = screen
            .unprotected_fields()
            .any(|field| field.start < at && field.start > 0);
        let start = screen.unprotected_fields().any(|field| field.start == at);
        self.count_if(found && !screen.suppressed, S::TabBackFound);
        self.count_if(found && start && !screen.suppressed, S::TabBackAtStart);
        self.count_if(found && screen.suppressed, S::TabBackSuppressed);
        self.count_if(!found, S::TabBackNone);
    }

    fn transmit_unprotected(&mut self, screen: &Screen) {
        let fields: Vec<_> = screen.unprotected_fields().collect();
        let joined = fields.windows(2).any(|two| two[0].end == two[1].start);
        self.count(match fields.len() {
            0 => S::UnprotectedNone,
            1 => S::UnprotectedOne,
            _ => S::UnprotectedMany,
        });
        self.count_if(joined, S::UnprotectedJoined);
        self.count_if(
            screen.suppressed && any_protected(screen),
            S::UnprotectedSuppressed,
        );
    }

    fn transmit_line(&mut self, screen: &Screen) {
        let inside = screen.cursor.x != X(0);
        self.count_if(screen.cursor.y == Y(screen.size.n - 1), S::LineLast);
        self.count_if(inside && screen.guarded(screen.at()), S::LineGuarded);
    }

    fn field(&mut self, code: u8, screen: &Screen) {
        let at = screen.at();
        let field = screen.field(at);
        let guarded = screen.guarded(at);
        let inside = field.start < at;
        let m = usize::from(screen.size.m);
        let crosses = field.start / m != (field.end - 1) / m;
        let whole = code == code::TRANSMIT_FIELD;
        self.count_if(guarded, S::FieldGuarded);
        self.count_if(guarded && inside && whole, S::FieldGuardedInside);
        self.count_if(!guarded && inside, S::FieldInside);
        self.count_if(!guarded && crosses, S::FieldCrosses);
        self.count_if(!guarded && screen.protected(at), S::FieldSuppressed);
    }

    fn erase(&mut self, screen: &Screen) {
        let (protected, suppressed) = (screen.protected(screen.at()), screen.suppressed);
        self.count_if(protected && !suppressed, S::EraseGuarded);
        self.count_if(protected && suppressed, S::EraseSuppressed);
    }

    fn erase_unprotected(&mut self, screen: &Screen) {
        let none = screen.unprotected_fields().next().is_none();
        self.count_if(none, S::Erase35None);
        self.count_if(
            screen.suppressed && any_protected(screen),
            S::Erase35Suppressed,
        );
    }

    fn format(&mut self, parameters: &[u8], screen: &Screen) {
        let count = match parameters {
            &[_, _, high, low] => usize::from(u16::from_be_bytes([high, low])),
            _ => 0,
        };
        self.count_if(count == 0, S::FormatNone);
        self.count_if(count == screen.cells() - screen.at(), S::FormatAll);
        self.count_if(count > 0 && screen.guarded(screen.at()), S::FormatGuarded);
    }

    fn repeat(&mut self, parameters: &[u8], screen: &Screen) {
        let at = screen.at();
        let count = usize::from(parameters.first().copied().unwrap_or(0));
        let open = (at..screen.cells())
            .take_while(|&cell| !screen.guarded(cell))
            .count();
        let last = at + open == screen.cells();
        self.count_if(count == 0, S::RepeatNone);
        self.count_if(count >= open && last && open > 0, S::RepeatLast);
        self.count_if(count > open && !last, S::RepeatStopped);
    }

    fn suppress(&mut self, parameters: &[u8], screen: &Screen) {
        match (parameters, screen.suppressed) {
            ([253], false) => self.count(S::SuppressBegun),
            ([253], true) => self.count(S::SuppressAgain),
            ([254], true) => self.count(S::SuppressEnded),
            ([254], false) => self.count(S::SuppressEndedAgain),
            _ => {}
        }
    }

    /// A key that nothing refused.
    pub fn key(&mut self, key: u8, screen: &Screen) {
        self.key_taken[usize::from(key)] += 1;
        match key {
            8 => self.back(screen),
            9 => self.tab(screen),
            13 => {
                let fields = screen.unprotected_fields().count();
                self.count_if(fields == 0, S::SendNone);
                self.count_if(fields > 1, S::SendMany);
            }
            32..=126 => self.typed(key, screen),
            _ => {}
        }
    }

    fn typed(&mut self, key: u8, screen: &Screen) {
        let at = screen.at();
        let mut after = at + 1..screen.cells();
        let kind = protection::of(screen.attrs[at]);
        self.count(match after.find(|&cell| !screen.guarded(cell)) {
            None => S::TypedStays,
            Some(cell) if cell > at + 1 => S::TypedSkips,
            Some(_) => S::TypedOn,
        });
        let in_effect = !screen.suppressed;
        self.count_if(
            in_effect && kind == protection::ALPHABETIC,
            S::TypedAlphabetic,
        );
        self.count_if(in_effect && kind == protection::NUMERIC, S::TypedNumeric);
        self.count_if(kind == protection::PROTECTED, S::TypedProtected);
        self.count_if(!class_takes(screen, key), S::TypedAnyClass);
    }

    fn back(&mut self, screen: &Screen) {
        let at = screen.at();
        let found = (0..at).rev().find(|&cell| !screen.guarded(cell));
        self.count_if(found.is_none(), S::BackStays);
        self.count_if(found.is_some_and(|cell| cell + 1 < at), S::BackSkips);
        self.count_if(
            found.is_some_and(|cell| cell < screen.line().start),
            S::BackLine,
        );
    }

    fn tab(&mut self, screen: &Screen) {
        let after = screen
            .unprotected_fields()
            .any(|field| field.start > screen.at());
        let none = screen.unprotected_fields().next().is_none();
        self.count(match (after, none) {
            (true, _) => S::TabOn,
            (_, true) => S::TabStays,
            _ => S::TabWraps,
        });
        self.count_if(screen.suppressed && any_protected(screen), S::TabSuppressed);
    }
}

fn any_protected(screen: &Screen) -> bool {
    (0..screen.cells()).any(|cell| screen.protected(cell))
}

/// The cursor's cell by its class alone.
fn class_takes(screen: &Screen, byte: u8) -> bool {
    let attr = screen.attrs[screen.at()];
    class::takes(protection::of(attr), byte, Variant::None)
}
