//! The three operations, safe: a session, and buffers that are lent for one
//! call.
//!
//! Beside its character and its attribute byte each cell has a mark: 1 where it
//! was touched, else 0. TRANSMIT MODIFIED sends the fields that have one.
//!
//! A terminal is opened with the edition of option 20 that its host follows:
//! [`JUNE`] or [`SEPTEMBER`]. `include/det.h` says what differs.
//!
//! Nothing that is lent can overlap: every buffer that a call may change is a
//! `&mut` of its own, so a call with one buffer in two places does not compile.
//!
//! ```
//! use host::terminal::{self, reply_room, SEPTEMBER};
//!
//! let (mut chars, mut attrs, mut marks) = ([0; 16], [0; 16], [0; 16]);
//! let mut session = terminal::open(8, 2, SEPTEMBER, &mut chars, &mut attrs, &mut marks).unwrap();
//! let mut reply = [0; reply_room(8, 2)];
//! let counts = session.host_bytes(b"HI", &mut chars, &mut attrs, &mut marks, &mut reply).unwrap();
//! assert_eq!((counts.taken, counts.written), (2, 0));
//! assert_eq!(&chars[..3], b"HI ");
//! ```
//!
//! ```compile_fail,E0499
//! use host::terminal::{self, reply_room, SEPTEMBER};
//!
//! let (mut chars, mut attrs, mut marks) = ([0; 16], [0; 16], [0; 16]);
//! let mut session = terminal::open(8, 2, SEPTEMBER, &mut chars, &mut attrs, &mut marks).unwrap();
//! let mut reply = [0; reply_room(8, 2)];
//! let counts = session.host_bytes(b"HI", &mut chars, &mut chars, &mut marks, &mut reply).unwrap();
//! ```

use crate::raw;
use crate::refusal::Refusal;

/// Where in a session's bytes each part of it stands.
pub mod at {
    pub const VERSION: usize = 0;
    pub const WIDTH: usize = 1;
    pub const HEIGHT: usize = 2;
    pub const X: usize = 3;
    pub const Y: usize = 4;
    pub const ON: usize = 5;
    pub const PAD_ON: usize = 6;
    pub const SUPPRESSED: usize = 7;
    pub const READER: usize = 8;
    pub const OPTION: usize = 9;
    pub const HELD_COUNT: usize = 10;
    pub const HELD: usize = 11;
    pub const CR: usize = 17;
    pub const PARAMETERS: usize = 18;
    pub const LINE_LENGTH: usize = 46;
    pub const LINE: usize = 47;
    pub const STAGE: usize = 175;
    pub const CODE: usize = 176;
    pub const WAITING: usize = 177;
    pub const COPY: usize = 178;
    pub const MAPS: usize = 206;
    pub const EDITION: usize = 211;
}

pub const SESSION_LENGTH: usize = 212;
pub const SESSION_VERSION: u8 = 4;

/// The editions of option 20: RFC 731 and RFC 732.
pub const JUNE: usize = 731;
pub const SEPTEMBER: usize = 732;

/// The fewest cells that option 30 is accepted with.
pub const PAD_CELLS: usize = 37;

/// The most bytes that the edit line holds.
pub const LINE_MOST: usize = 128;

/// How many parameters option 30 has here: 0 to 22 and 128 to 132.
pub const PARAMETER_COUNT: usize = 28;

/// How many bytes facility maps are: edit, erase, transmit, and two of format.
pub const MAP_COUNT: usize = 5;

/// The terminal's own, in that order: those of September's edition, and of
/// June's.
pub const OWN_MAPS: [u8; MAP_COUNT] = [126, 31, 63, 208, 121];
pub const OWN_MAPS_JUNE: [u8; MAP_COUNT] = [126, 31, 63, 144, 121];

const DONE: u8 = 0;
const NO_SESSION: u8 = 255;

/// The length of the shortest reply buffer for a screen of this size. A program
/// does well to keep to 7,281 cells: then it fits in 16 bits.
pub const fn reply_room(width: usize, height: usize) -> usize {
    9 * width * height
}

/// What a terminal is besides its screen.
#[derive(Clone, Debug, PartialEq, Eq)]
pub struct Session([u8; SESSION_LENGTH]);

impl Default for Session {
    /// What a refused [`open`] leaves: 0 by 0, refused with 1 by every call,
    /// of September's edition.
    fn default() -> Session {
        let mut session = Session([0; SESSION_LENGTH]);
        raw::open(0, 0, SEPTEMBER, &mut [], &mut [], &mut [], &mut session.0);
        session
    }
}

/// A column and a line, from 0.
#[derive(Clone, Copy, Debug, PartialEq, Eq)]
pub struct Cursor {
    pub x: u8,
    pub y: u8,
}

/// Where the reader of Telnet bytes stands; in a subnegotiation with its
/// option.
#[derive(Clone, Copy, Debug, PartialEq, Eq)]
pub enum Reader {
    Data,
    Iac,
    Will,
    Wont,
    Do,
    Dont,
    Sb,
    SbIac,
    Sub(u8),
    SubIac(u8),
}

/// How many host bytes or keys a call took, and how many reply bytes it wrote.
#[derive(Clone, Copy, Debug, Default, PartialEq, Eq)]
pub struct Counts {
    pub taken: usize,
    pub written: usize,
}

/// Opens a screen: spaces, attributes 0, no cell marked, a new session with the
/// codes of this edition. Refused, it changes no buffer.
// A session is as long where it is opened.
#[allow(clippy::result_large_err)]
pub fn open(
    width: usize,
    height: usize,
    edition: usize,
    chars: &mut [u8],
    attrs: &mut [u8],
    marks: &mut [u8],
) -> Result<Session, (Refusal, Session)> {
    let mut session = Session([0; SESSION_LENGTH]);
    match answer(raw::open(
        width,
        height,
        edition,
        chars,
        attrs,
        marks,
        &mut session.0,
    )) {
        Ok(()) => Ok(session),
        Err(refusal) => Err((refusal, session)),
    }
}

impl Session {
    /// None where the bytes are no session.
    pub fn from_bytes(bytes: [u8; SESSION_LENGTH]) -> Option<Session> {
        let mut session = Session(bytes);
        // Every session refuses a call that is lent no screen, and stays.
        let (mut taken, mut written) = (0, 0);
        let number = raw::key(
            &mut session.0,
            0,
            &mut [],
            &[],
            &mut [],
            &mut [],
            &mut taken,
            &mut written,
        );
        (number != NO_SESSION).then_some(session)
    }

    pub fn as_bytes(&self) -> &[u8; SESSION_LENGTH] {
        &self.0
    }

    /// Hands on bytes from the host; the rest of them is to be handed on
    /// again where not all are taken. The reply's first `written` bytes are to
    /// go to the host.
    pub fn host_bytes(
        &mut self,
        input: &[u8],
        chars: &mut [u8],
        attrs: &mut [u8],
        marks: &mut [u8],
        reply: &mut [u8],
    ) -> Result<Counts, Refusal> {
        let mut counts = Counts::default();
        let Counts { taken, written } = &mut counts;
        let session = &mut self.0;
        answer(raw::host(
            session, input, chars, attrs, marks, reply, taken, written,
        ))?;
        Ok(counts)
    }

    /// Hands on one key.
    pub fn key(
        &mut self,
        key: u32,
        chars: &mut [u8],
        attrs: &[u8],
        marks: &mut [u8],
        reply: &mut [u8],
    ) -> Result<Counts, Refusal> {
        let mut counts = Counts::default();
        let Counts { taken, written } = &mut counts;
        let session = &mut self.0;
        answer(raw::key(
            session, key, chars, attrs, marks, reply, taken, written,
        ))?;
        Ok(counts)
    }

    pub fn width(&self) -> usize {
        usize::from(self.0[at::WIDTH])
    }

    pub fn height(&self) -> usize {
        usize::from(self.0[at::HEIGHT])
    }

    /// The edition that it was opened with, [`JUNE`] or [`SEPTEMBER`].
    pub fn edition(&self) -> usize {
        match self.0[at::EDITION] {
            0 => JUNE,
            _ => SEPTEMBER,
        }
    }

    pub fn cursor(&self) -> Cursor {
        Cursor {
            x: self.0[at::X],
            y: self.0[at::Y],
        }
    }

    /// Whether option 20 is on.
    pub fn is_on(&self) -> bool {
        self.0[at::ON] == 1
    }

    /// Whether option 30 is on.
    pub fn is_pad_on(&self) -> bool {
        self.0[at::PAD_ON] == 1
    }

    /// Whether protection is suppressed.
    pub fn is_suppressed(&self) -> bool {
        self.0[at::SUPPRESSED] == 1
    }

    pub fn reader(&self) -> Reader {
        let option = self.0[at::OPTION];
        match self.0[at::READER] {
            0 => Reader::Data,
            1 => Reader::Iac,
            2 => Reader::Will,
            3 => Reader::Wont,
            4 => Reader::Do,
            5 => Reader::Dont,
            6 => Reader::Sb,
            7 => Reader::SbIac,
            8 => Reader::Sub(option),
            _ => Reader::SubIac(option),
        }
    }

    /// The six places for the bytes of a subnegotiation.
    pub fn held(&self) -> &[u8] {
        &self.0[at::HELD..at::CR]
    }

    /// How many of them are held.
    pub fn held_count(&self) -> u8 {
        self.0[at::HELD_COUNT]
    }

    /// What waits in the edit line. A length out of range counts as the most.
    pub fn line(&self) -> &[u8] {
        let length = usize::from(self.0[at::LINE_LENGTH]);
        &self.0[at::LINE..][..length.min(LINE_MOST)]
    }

    /// The values of option 30's parameters in force: 0 to 22, then 128 to
    /// 132, of which the last four count while 128 has the value 1.
    pub fn parameters(&self) -> &[u8] {
        &self.0[at::PARAMETERS..][..PARAMETER_COUNT]
    }

    /// The value of one of them; none for a parameter that there is not.
    pub fn parameter(&self, number: u8) -> Option<u8> {
        let place = match number {
            0..=22 => number,
            128..=132 => number - 105,
            _ => return None,
        };
        Some(self.parameters()[usize::from(place)])
    }

    /// The facility maps that the host has sent last, each 0 before it has.
    pub fn received_maps(&self) -> &[u8] {
        &self.0[at::MAPS..][..MAP_COUNT]
    }

    /// The terminal's own facility maps, which go by its edition.
    pub fn own_maps(&self) -> [u8; MAP_COUNT] {
        match self.edition() {
            JUNE => OWN_MAPS_JUNE,
            _ => OWN_MAPS,
        }
    }

    /// The facilities that are agreed: those in the maps received and in the
    /// terminal's own. A command that another bit governs draws ERROR 1.
    pub fn agreed_maps(&self) -> [u8; MAP_COUNT] {
        let mut agreed = self.own_maps();
        for (map, received) in agreed.iter_mut().zip(self.received_maps()) {
            *map &= received;
        }
        agreed
    }
}

/// What the library's number says. It never says `NO_SESSION` here, since a
/// [`Session`] is one.
fn answer(number: u8) -> Result<(), Refusal> {
    match Refusal::of_number(number) {
        None if number == DONE => Ok(()),
        None => panic!("the terminal's library answered {number}"),
        Some(refusal) => Err(refusal),
    }
}
