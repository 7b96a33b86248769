//! What happens in June's edition, and opens refused for an edition.

use super::situation::Situation as S;
use super::Cover;
use crate::command::{code, error};
use crate::edition::Edition;
use crate::facilities::bit;
use crate::refusal::Refusal;
use crate::replay::Replay;
use crate::reply::DET;
use crate::script::{Line, Opening};
use crate::telnet::Verb;
use crate::watch::{Event, Sight};

impl Cover {
    pub fn opened(&mut self, edition: Edition) {
        self.count(S::Opened);
        self.count_if(edition == Edition::June, S::OpenedJune);
    }

    pub fn june(&mut self, event: Event, sight: Sight) {
        if sight.edition == Edition::September {
            return;
        }
        let marked = sight.screen.marks.contains(&1);
        match event {
            Event::Error(code, error::UNKNOWN_CODE, _) => {
                self.count_if(code == 27 && marked, S::June27Marks);
                self.count_if(matches!(code, 27 | 38 | 39), S::JuneOurs);
                self.count_if(code == 41, S::June41);
            }
            Event::Executed(code::FORMAT_FACILITIES, &[map, _]) => {
                self.count_if(map & bit::MODIFIED.mask() != 0, S::JuneModifiedBit);
            }
            Event::Executed(code::ERASE_SCREEN, _) => self.count_if(marked, S::JuneEraseMarks),
            Event::Negotiation(Verb::Dont, DET) => self.count_if(sight.det, S::JuneDont),
            Event::Key(key) => self.june_key(key, sight),
            _ => {}
        }
    }

    fn june_key(&mut self, key: u8, sight: Sight) {
        let screen = sight.screen;
        let lined = sight.pad.on && !sight.det;
        let unmarked = screen.marks[screen.at()] == 0;
        match key {
            13 => {
                let many = screen.unprotected_fields().count() > 1;
                self.count_if(many && !lined, S::JuneSendMany);
            }
            32..=126 => self.count_if(unmarked && !lined, S::JuneTyped),
            128..=143 => self.count(S::JuneFunction),
            _ => {}
        }
    }

    /// A call's refusal, with what it found.
    pub fn edition_refused(&mut self, refusal: Refusal, line: &Line, replay: &Replay) {
        let session = &replay.terminal.session;
        match *line {
            Line::Open(open) => self.refused_open(refusal, open),
            Line::Host(_, room) | Line::Key(_, room) if session.edition == Edition::June => {
                let cells = session.size.cells();
                let others = replay.chars.len() == cells && replay.attrs.len() == cells;
                match refusal {
                    Refusal::Mark => self.count(S::JuneMark),
                    Refusal::Buffers => self.count_if(others, S::JuneMarks),
                    Refusal::Room => self.count_if(room >= 7 * cells + 2, S::JuneRoom),
                    _ => {}
                }
            }
            _ => {}
        }
    }

    fn refused_open(&mut self, refusal: Refusal, open: Opening) {
        let edition = Edition::named(open.edition);
        let june = edition == Some(Edition::June);
        let good = [open.chars, open.attrs, open.marks] == [open.cells(); 3];
        match refusal {
            Refusal::Size => {
                self.count_if(edition.is_none(), S::Refused1Edition);
                self.count_if(june, S::Refused1June);
            }
            Refusal::Buffers => self.count_if(june, S::Refused2June),
            Refusal::Edition => {
                self.count_if(good, S::Refused12Alone);
                self.count_if(!good, S::Refused12Buffers);
                let near = matches!(open.edition, 730 | 733);
                self.count_if(near, S::Refused12Near);
            }
            _ => {}
        }
    }
}
