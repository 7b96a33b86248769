//! Marks set, sent, cleared and left, told apart before it happens.

use std::ops::Range;

use super::situation::Situation as S;
use super::Cover;
use crate::command::code;
use crate::refusal::Refusal;
use crate::replay::Replay;
use crate::reply::DET;
use crate::screen::Screen;
use crate::script::Line;
use crate::telnet::Verb;
use crate::watch::{Event, Sight};

impl Cover {
    pub fn marks(&mut self, event: Event, sight: Sight) {
        let screen = sight.screen;
        match event {
            Event::Executed(code, parameters) => self.marks_command(code, parameters, screen),
            Event::Data(byte) => self.marks_data(byte, screen),
            Event::Negotiation(Verb::Dont, DET) => {
                let some = any(screen, 0..screen.cells(), 1);
                self.count_if(some && sight.det, S::DontLeavesMarks);
            }
            _ => {}
        }
    }

    fn marks_command(&mut self, code: u8, parameters: &[u8], screen: &Screen) {
        let some = any(screen, 0..screen.cells(), 1);
        match code {
            code::TRANSMIT_MODIFIED => self.transmit_modified(screen),
            code::TRANSMIT_UNPROTECTED => self.count_if(some, S::SendLeavesMarks),
            code::LINE_INSERT | code::LINE_DELETE => self.marks_lines(screen),
            code::CHAR_INSERT | code::CHAR_DELETE => self.marks_shift(screen),
            code::ERASE_SCREEN => self.count_if(some, S::EraseScreenMarks),
            code::ERASE_UNPROTECTED => {
                self.count_if(protected_marks(screen), S::EraseUnprotectedMarks);
            }
            code::ERASE_LINE..=code::ERASE_REST_OF_FIELD => {
                self.count_if(some, S::EraseLeavesMarks);
                self.count_if(!some, S::EraseLeavesUnmarked);
            }
            code::FORMAT_DATA => self.marks_format(parameters, screen),
            _ => {}
        }
    }

    fn transmit_modified(&mut self, screen: &Screen) {
        let fields: Vec<Range<usize>> = screen.unprotected_fields().collect();
        let marked: Vec<bool> = fields.iter().map(|field| screen.modified(field)).collect();
        let count = marked.iter().filter(|&&marked| marked).count();
        let protected = protected_marks(screen);
        self.count_if(count == 0 && !protected, S::ModifiedNone);
        self.count_if(count == 0 && protected, S::ModifiedNoField);
        self.count_if(count == 1, S::ModifiedOne);
        self.count_if(count > 1, S::ModifiedMany);
        self.count_if(count > 0 && marked.first() == Some(&false), S::ModifiedSome);
        self.count_if(count > 0 && protected, S::ModifiedProtected);
        self.count_if(protected && screen.suppressed, S::ModifiedSuppressed);
        let m = usize::from(screen.size.m);
        for field in fields.iter().filter(|field| screen.modified(field)) {
            let ends = [field.start, field.end - 1];
            let inside = ends.iter().all(|&cell| screen.marks[cell] == 0);
            self.count_if(inside, S::ModifiedInside);
            self.count_if(ends[0] / m != ends[1] / m, S::ModifiedCrosses);
        }
    }

    fn marks_lines(&mut self, screen: &Screen) {
        let cells = screen.line().start..screen.cells();
        let unmarked = any(screen, cells.clone(), 0);
        if cells.clone().any(|cell| screen.guarded(cell)) {
            return self.count_if(unmarked, S::ShiftStopped);
        }
        self.count_if(unmarked, S::LinesMark);
        self.count_if(unmarked && any(screen, cells, 1), S::LinesMarkSome);
    }

    fn marks_shift(&mut self, screen: &Screen) {
        let span = screen.edit_span();
        let unmarked = any(screen, span.clone(), 0);
        if screen.guarded(span.start) {
            return self.count_if(unmarked, S::ShiftStopped);
        }
        let mut inside = span.start..span.end - 1;
        let same = inside
            .any(|cell| screen.marks[cell] == 0 && screen.chars[cell] == screen.chars[cell + 1]);
        self.count_if(unmarked, S::ShiftMarks);
        self.count_if(same, S::ShiftMarksSame);
    }

    fn marks_format(&mut self, parameters: &[u8], screen: &Screen) {
        let &[_, _, high, low] = parameters else {
            return;
        };
        let at = screen.at();
        let cells = at..at + usize::from(u16::from_be_bytes([high, low]));
        self.count_if(any(screen, cells.clone(), 1), S::FormatOverMarks);
        self.count_if(any(screen, cells, 0), S::FormatOverUnmarked);
    }

    fn marks_data(&mut self, byte: u8, screen: &Screen) {
        let at = screen.at();
        let written = (32..=126).contains(&byte) && !screen.guarded(at);
        self.count_if(written && screen.marks[at] == 0, S::HostUnmarked);
    }

    /// A key that the edit line does not take.
    pub fn marks_key(&mut self, key: u8, screen: &Screen) {
        let at = screen.at();
        let unmarked = screen.marks[at] == 0;
        match key {
            13 => {
                let some = any(screen, 0..screen.cells(), 1);
                self.count_if(some, S::SendKeyLeavesMarks);
            }
            32..=126 => {
                self.count_if(unmarked, S::TypedMarks);
                self.count_if(unmarked && screen.chars[at] == key, S::TypedMarkedSame);
                self.count_if(unmarked && screen.protected(at), S::TypedSuppressedMark);
            }
            127 => self.count_if(any(screen, screen.edit_span(), 0), S::DeleteKeyMarks),
            _ => {}
        }
    }

    /// A call's refusal, with what it found.
    pub fn marks_refused(&mut self, refusal: Refusal, line: &Line, replay: &Replay) {
        let size = replay.terminal.session.size;
        let (cells, marks) = (size.cells(), &replay.marks);
        if let Line::Open(open) = *line {
            let cells = open.cells();
            let alone = open.chars == cells && open.attrs == cells && open.marks != cells;
            self.count_if(alone && refusal == Refusal::Buffers, S::Refused2Open);
            return;
        }
        let &(Line::Host(_, room) | Line::Key(_, room)) = line else {
            return;
        };
        let above = marks.iter().any(|&mark| mark > 1);
        let others = replay.chars.len() == cells && replay.attrs.len() == cells;
        match refusal {
            Refusal::Buffers => self.count_if(others, S::Refused2Marks),
            Refusal::Mark => self.count_if(room < size.room(), S::Refused11Room),
            Refusal::Session => self.count_if(above, S::Refused4Mark),
            Refusal::Room => self.count_if(room >= 7 * cells + 2, S::RoomBetween),
            _ => {}
        }
    }
}

/// Whether one of the cells has that mark.
fn any(screen: &Screen, cells: Range<usize>, mark: u8) -> bool {
    screen.marks[cells].contains(&mark)
}

fn protected_marks(screen: &Screen) -> bool {
    let mut cells = 0..screen.cells();
    cells.any(|cell| screen.protected(cell) && screen.marks[cell] == 1)
}
