//! Counts for option 30, and which part of the terminal an event is for.

use super::situation::Situation as S;
use super::Cover;
use crate::pad::parameters::number;
use crate::pad::{fits, Pad, LF, PAD};
use crate::refusal::Refusal;
use crate::reply::DET;
use crate::script::Line;
use crate::session::Session;
use crate::telnet::{Sub, Verb};
use crate::variant::Variant;
use crate::watch::{Event, Sight, Watch};

/// Styles of parameter 19, by their labels.
pub const STYLES: [&str; 5] = ["0", "1", "2", "8", "32 to 126"];

pub struct PadCounts {
    /// By the bit of parameter 3.
    pub forwarded: [u64; 8],
    /// By the bit of parameter 20 that alone did it.
    pub silenced: [u64; 8],
    /// By the edit key's parameter.
    pub edited: [u64; 256],
    /// By the style: of character deletes, then of line deletes.
    pub signals: [[u64; STYLES.len()]; 2],
    /// By the parameter: changed, or a bad value given.
    pub set: [u64; 256],
    pub bad: [u64; 256],
    pub keys: [u64; 256],
}

impl PadCounts {
    pub fn new() -> PadCounts {
        PadCounts {
            forwarded: [0; 8],
            silenced: [0; 8],
            edited: [0; 256],
            signals: [[0; STYLES.len()]; 2],
            set: [0; 256],
            bad: [0; 256],
            keys: [0; 256],
        }
    }
}

fn works(sight: Sight) -> bool {
    sight.pad.works(sight.det, Variant::None)
}

impl Watch for Cover {
    fn saw(&mut self, event: Event, sight: Sight) {
        let Sight { screen, det, .. } = sight;
        self.marks(event, sight);
        self.june(event, sight);
        match event {
            Event::Data(LF) => self.line_feed(sight),
            Event::Data(byte) => self.data(byte, screen),
            Event::Negotiation(verb, PAD) => self.pad_negotiation(verb, sight),
            Event::Negotiation(verb, option) => {
                self.count_if(ends_det(verb, option, sight), S::LineKept);
                self.negotiation(verb, option, screen, det);
                self.facility_negotiation(verb, option, sight);
            }
            Event::Subnegotiation(sub) => {
                self.subnegotiation(sub, det);
                self.pad_subnegotiation(sub, sight);
                self.facility_while_off(sub, sight);
            }
            Event::ThrownAway(sub) => self.thrown_away(sub, sight.pad),
            Event::Executed(code, parameters) => {
                self.executed(code, parameters, sight);
                self.facility_executed(code, parameters, sight);
            }
            Event::Error(code, number, parameters) => {
                self.error(code, number, sight.edition);
                self.facility_error(code, number, parameters, sight);
            }
            Event::Limited(x, y) => self.limited(x, y, screen),
            Event::Key(key) if works(sight) && key <= 127 => self.line_key(key, sight),
            Event::Key(key) => {
                self.key(key, screen);
                self.facility_key(key, sight);
                self.marks_key(key, screen);
            }
        }
    }
}

/// DONT 20 that finds a line, which must be from before DET.
fn ends_det(verb: Verb, option: u8, sight: Sight) -> bool {
    let ends = verb == Verb::Dont && option == DET && sight.det;
    ends && sight.pad.on && !sight.pad.line.is_empty()
}

impl Cover {
    fn pad_negotiation(&mut self, verb: Verb, sight: Sight) {
        let (pad, on, cells) = (sight.pad, sight.pad.on, sight.screen.cells());
        self.count(match (verb, on, cells) {
            (Verb::Do, true, _) => S::Do30On,
            (Verb::Do, false, 0..=35) => S::Do30Small,
            (Verb::Do, false, 36) => S::Do30At36,
            (Verb::Do, false, 37) => S::Do30At37,
            (Verb::Do, false, _) => S::Do30Off,
            (Verb::Dont, true, _) => S::Dont30On,
            (Verb::Dont, false, _) => S::Dont30Off,
            (Verb::Will, ..) => S::Will30,
            (Verb::Wont, ..) => S::Wont30,
        });
        let ends = verb == Verb::Dont && on;
        let accepted = verb == Verb::Do && !on && fits(cells, Variant::None);
        self.count_if(accepted && sight.det, S::Do30Det);
        self.count_if(ends && !pad.line.is_empty(), S::Dont30Line);
        self.count_if(ends && sight.screen.suppressed, S::Dont30Suppressed);
        self.count_if(ends && !sight.agreed.nothing(), S::Dont30Agreed);
    }

    fn pad_subnegotiation(&mut self, sub: &Sub, sight: Sight) {
        match (sub.option == Some(PAD), sight.pad.on) {
            (true, true) => self.pad_message(&sub.message, sight),
            (true, false) => self.count(S::PadOff),
            _ => {}
        }
    }

    fn thrown_away(&mut self, sub: &Sub, pad: &Pad) {
        let ours = sub.option == Some(PAD) && pad.on;
        self.count(S::ThrownAway);
        self.count_if(ours, S::PadCutOff);
        self.count_if(ours && sub.message.len() > 2, S::PadCutOffPair);
    }

    fn line_feed(&mut self, sight: Sight) {
        let pad = sight.pad;
        let wanted = pad.parameters.has(number::LINE_FEEDS, 1);
        let (after, works) = (pad.after_cr, works(sight));
        if after && works && !wanted {
            return self.count(S::LfSwallowed);
        }
        self.count_if(after && works, S::LfObeyed);
        self.count_if(after && pad.on && sight.det && !wanted, S::LfWithDet);
        self.count_if(after && !pad.on && !sight.det && !wanted, S::LfWithout30);
        self.data(LF, sight.screen);
    }

    /// A call's refusal, with the session that it found.
    pub fn pad_refused(&mut self, refusal: Refusal, line: &Line, session: &Session) {
        let small = !fits(session.size.cells(), Variant::None);
        let alone = session.size.holds(session.cursor) && session.reader.held.sound();
        let by_30 = refusal == Refusal::Session && session.pad.on && small && alone;
        self.count_if(by_30, S::Refused4By30);
        let function = matches!(line, Line::Key(128..=143, _)) && refusal == Refusal::DetOff;
        let lined = session.line_takes(0, Variant::None);
        self.count_if(function && lined, S::FunctionWithLine);
    }
}
