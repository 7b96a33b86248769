//! Facilities agreed on, taken away and missed.

use super::situation::Situation as S;
use super::Cover;
use crate::command::{code, error, parameter_count};
use crate::facilities::{bit, class, governing, own, Agreed};
use crate::format::{check_repeat, check_suppress};
use crate::reply::DET;
use crate::telnet::{Sub, Verb};
use crate::variant::Variant;
use crate::watch::Sight;

pub struct FacilityCounts {
    /// ERROR 1 by its command where DONT 20 had taken the facility away.
    pub lost_error: [u64; 256],
    /// By the command: executed, its bit the only one agreed in its map.
    pub alone: [u64; 256],
    /// By the command: ERROR 1, its bit the only one of ours missing.
    pub missed: [u64; 256],
    /// By the command: executed while nothing is agreed.
    pub unagreed: [u64; 256],
    /// By the facility command.
    pub narrowed: [u64; 256],
    pub replaced: [u64; 256],
    pub error: [u64; 256],
    /// What DONT 20 took away and no facility command brought back.
    lost: Agreed,
}

impl FacilityCounts {
    pub fn new() -> FacilityCounts {
        FacilityCounts {
            lost_error: [0; 256],
            alone: [0; 256],
            missed: [0; 256],
            unagreed: [0; 256],
            narrowed: [0; 256],
            replaced: [0; 256],
            error: [0; 256],
            lost: Agreed::default(),
        }
    }

    pub fn opened(&mut self) {
        self.lost = Agreed::default();
    }

    fn executed(&mut self, code: u8, parameters: &[u8], sight: Sight) {
        let agreed = sight.agreed;
        let place = usize::from(code);
        self.unagreed[place] += u64::from(agreed.nothing());
        if let Some(bit) = governing(code, Variant::None) {
            let alone = agreed.0[bit.0 as usize] == bit.mask();
            self.alone[place] += u64::from(alone);
        }
        for (map, &received) in class(code).zip(parameters) {
            self.lost.0[map] = 0;
            let own = own(map, sight.edition, Variant::None);
            let (old, new) = (agreed.0[map], received & own);
            self.narrowed[place] += u64::from(old & !new != 0);
            self.replaced[place] += u64::from(old & !new != 0 && new & !old != 0);
        }
    }

    fn missed(&mut self, code: u8, sight: Sight) {
        let Some(bit) = governing(code, Variant::None) else {
            return;
        };
        let (place, map) = (usize::from(code), bit.0 as usize);
        let own = own(map, sight.edition, Variant::None);
        let missing = own & !sight.agreed.0[map];
        self.missed[place] += u64::from(missing == bit.mask());
        self.lost_error[place] += u64::from(self.lost.has(bit));
    }
}

impl Cover {
    pub fn facility_executed(&mut self, code: u8, parameters: &[u8], sight: Sight) {
        self.facilities.executed(code, parameters, sight);
    }

    pub fn facility_error(&mut self, code: u8, number: u8, parameters: &[u8], sight: Sight) {
        let code = sight.edition.meaning(code);
        let unknown = number == error::UNKNOWN_CODE;
        self.count_if(unknown && sight.agreed.nothing(), S::UnknownUnagreed);
        if !class(code).is_empty() {
            self.facilities.error[usize::from(code)] += 1;
        }
        if number != error::NOT_AGREED {
            return;
        }
        self.facilities.missed(code, sight);
        let (known, count) = (parameter_count(code).unwrap_or(0), parameters.len());
        self.count_if(count < known, S::Error1TooFew);
        self.count_if(count > known, S::Error1TooMany);
        self.count_if(bad_value(code, parameters), S::Error1BadValue);
    }

    /// DONT 20 takes away what was agreed, but only while on.
    pub fn facility_negotiation(&mut self, verb: Verb, option: u8, sight: Sight) {
        if option != DET {
            return;
        }
        let some = !sight.agreed.nothing();
        match (verb, sight.det) {
            (Verb::Dont, true) => {
                self.count_if(some, S::DontAgreed);
                for (lost, agreed) in self.facilities.lost.0.iter_mut().zip(sight.agreed.0) {
                    *lost |= agreed;
                }
            }
            (Verb::Dont, false) => self.count_if(some, S::DontOffAgreed),
            (Verb::Do, false) => self.count_if(some, S::DoOffAgreed),
            (Verb::Do, true) => self.count_if(some, S::DoOnAgreed),
            (Verb::Wont, _) => self.count_if(some, S::WontAgreed),
            (Verb::Will, _) => {}
        }
    }

    pub fn facility_while_off(&mut self, sub: &Sub, sight: Sight) {
        let code = sub.held.bytes().first();
        let facility = code.is_some_and(|&code| !class(code).is_empty());
        let ours = sub.option == Some(DET) && !sight.det;
        self.count_if(ours && facility, S::FacilityOff);
    }

    pub fn facility_key(&mut self, key: u8, sight: Sight) {
        match key {
            13 => self.count_if(!sight.agreed.has(bit::PROTECTION), S::SendUnagreed),
            127 => self.count_if(!sight.agreed.has(bit::CHARS), S::DeleteUnagreed),
            128..=143 => self.count_if(!sight.agreed.has(bit::FN), S::FunctionUnagreed),
            _ => {}
        }
    }
}

/// Of the right number of parameters.
fn bad_value(code: u8, parameters: &[u8]) -> bool {
    match (code, parameters) {
        (code::REPEAT, &[count, byte]) => check_repeat(count, byte, Variant::None).is_err(),
        (code::SUPPRESS_PROTECTION, &[verb]) => check_suppress(verb).is_err(),
        _ => false,
    }
}
