//! Counts what a script exercises.

mod classify;
mod edition;
mod facilities;
mod line;
mod lines;
mod marks;
mod message;
mod pad;
mod situation;
mod table;

use std::io::{self, BufRead};

use crate::command::code;
use crate::edition::Edition;
use crate::refusal::Refusal;
use crate::replay::{next_line, Replay};
use crate::script::Line;
use crate::size::Size;
use crate::telnet::Phase;
use crate::terminal::Outcome;
use crate::variant::Variant;
use crate::watch::Sight;
use facilities::FacilityCounts;
use pad::PadCounts;
use situation::Situation;

const REFUSALS: usize = 13;
const EDITIONS: usize = Edition::ALL.len();
const ERRORS: usize = 13;

/// Every count starts at 0; the table asks that each rises.
pub struct Cover {
    /// By the edition and the code.
    executed: [[u64; 256]; EDITIONS],
    /// 38, or June's 37, by its parameter.
    suppress: [[u64; 256]; EDITIONS],
    errors: [[[u64; 256]; ERRORS]; EDITIONS],
    open_refused: [u64; REFUSALS],
    host_refused: [u64; REFUSALS],
    key_taken: [u64; 256],
    key_refused: [[u64; 256]; REFUSALS],
    pad: PadCounts,
    facilities: FacilityCounts,
    phases: Vec<(&'static str, u64)>,
    situations: Vec<u64>,
}

/// A line that is no line of a script, by its number.
pub struct BadLine(pub usize);

/// Runs a whole script.
pub fn script(input: &mut impl BufRead) -> io::Result<Result<Cover, BadLine>> {
    let (mut cover, mut replay) = (Cover::new(), Replay::new(Variant::None));
    let (mut bytes, mut number) = (Vec::new(), 0);
    while next_line(input, &mut bytes)? {
        number += 1;
        match Line::parse(&bytes) {
            Some(line) => cover.run(&mut replay, &line),
            None => return Ok(Err(BadLine(number))),
        }
    }
    Ok(Ok(cover))
}

impl Default for Cover {
    fn default() -> Cover {
        Cover::new()
    }
}

impl Cover {
    pub fn new() -> Cover {
        Cover {
            executed: [[0; 256]; EDITIONS],
            suppress: [[0; 256]; EDITIONS],
            errors: [[[0; 256]; ERRORS]; EDITIONS],
            open_refused: [0; REFUSALS],
            host_refused: [0; REFUSALS],
            key_taken: [0; 256],
            key_refused: [[0; 256]; REFUSALS],
            pad: PadCounts::new(),
            facilities: FacilityCounts::new(),
            phases: table::PHASES.map(|name| (name, 0)).to_vec(),
            situations: vec![0; Situation::ALL.len()],
        }
    }

    pub fn run(&mut self, replay: &mut Replay, line: &Line) {
        if matches!(line, Line::Open(_)) {
            self.facilities.opened();
        }
        let Some(outcome) = replay.run(line, self) else {
            return;
        };
        if let Some(refusal) = outcome.refusal {
            self.marks_refused(refusal, line, replay);
            self.edition_refused(refusal, line, replay);
            self.pad_refused(refusal, line, &replay.terminal.session);
        }
        match (line, outcome.refusal) {
            (Line::Host(input, room), None) => self.host_done(replay, outcome, input, *room),
            (Line::Host(..), Some(refusal)) => raise(&mut self.host_refused, refusal),
            (Line::Key(_, room), None) => self.key_done(replay, *room),
            (Line::Key(key, _), Some(refusal)) => self.key_refused(*key, refusal),
            (_, None) => self.opened(replay.terminal.session.edition),
            (_, Some(refusal)) => raise(&mut self.open_refused, refusal),
        }
    }

    fn count(&mut self, situation: Situation) {
        self.situations[situation as usize] += 1;
    }

    fn count_if(&mut self, is: bool, situation: Situation) {
        self.situations[situation as usize] += u64::from(is);
    }

    fn host_done(&mut self, replay: &Replay, outcome: Outcome, input: &[u8], room: usize) {
        let session = &replay.terminal.session;
        let exact = room == session.size.room();
        self.count_if(input.is_empty(), Situation::NoBytes);
        self.count_if(outcome.taken < input.len(), Situation::FewerTaken);
        self.count_if(exact, Situation::HostRoomExact);
        self.count_if(session.size.cells() == 7_280, Situation::LargestScreen);
        self.count_if(session.size.m == Size::MOST_M, Situation::WidestScreen);
        self.count_if(session.size.n == Size::MOST_N, Situation::HighestScreen);
        let (least, free) = (session.size.room(), room - outcome.written);
        let between = 7 * session.size.cells() + 2..least;
        self.count_if(free == least, Situation::FreeExact);
        let stopped = outcome.taken < input.len();
        self.count_if(stopped && between.contains(&free), Situation::FreeBetween);
        self.count_phase(session.reader.phase);
    }

    fn count_phase(&mut self, phase: Phase) {
        let name = crate::replay::phase_name(phase);
        let found = self.phases.iter_mut().find(|(known, _)| *known == name);
        if let Some((_, count)) = found {
            *count += 1;
        }
    }

    fn key_done(&mut self, replay: &Replay, room: usize) {
        let exact = room == replay.terminal.session.size.room();
        self.count_if(exact, Situation::KeyRoomExact);
    }

    fn key_refused(&mut self, key: u8, refusal: Refusal) {
        self.key_refused[usize::from(refusal.number())][usize::from(key)] += 1;
    }

    fn executed(&mut self, meaning: u8, parameters: &[u8], sight: Sight) {
        let edition = sight.edition as usize;
        let code = sight.edition.code(meaning).unwrap_or(meaning);
        self.executed[edition][usize::from(code)] += 1;
        if let (code::SUPPRESS_PROTECTION, &[verb]) = (meaning, parameters) {
            self.suppress[edition][usize::from(verb)] += 1;
        }
        self.command(meaning, parameters, sight.screen);
    }

    fn error(&mut self, code: u8, number: u8, edition: Edition) {
        self.errors[edition as usize][usize::from(number)][usize::from(code)] += 1;
        self.count_if(code == 255, Situation::ErrorNames255);
    }
}

fn raise(counts: &mut [u64; REFUSALS], refusal: Refusal) {
    counts[usize::from(refusal.number())] += 1;
}
