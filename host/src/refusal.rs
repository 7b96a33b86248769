//! Why a call was refused.

use std::error::Error;
use std::fmt;

/// The numbers are those of `include/det.h`. 255 is not among them: a
/// [`Session`](crate::terminal::Session) is one.
#[derive(Clone, Copy, Debug, PartialEq, Eq)]
pub enum Refusal {
    Size = 1,
    Length = 2,
    Character = 3,
    Range = 4,
    Room = 5,
    Guarded = 6,
    Class = 7,
    Off = 8,
    NoMeaning = 9,
    LineFull = 10,
    Mark = 11,
    Edition = 12,
}

impl Refusal {
    pub const ALL: [Refusal; 12] = [
        Refusal::Size,
        Refusal::Length,
        Refusal::Character,
        Refusal::Range,
        Refusal::Room,
        Refusal::Guarded,
        Refusal::Class,
        Refusal::Off,
        Refusal::NoMeaning,
        Refusal::LineFull,
        Refusal::Mark,
        Refusal::Edition,
    ];

    pub fn number(self) -> u8 {
        self as u8
    }

    /// None for a number that is no refusal's.
    pub fn of_number(number: u8) -> Option<Refusal> {
        Refusal::ALL
            .into_iter()
            .find(|refusal| refusal.number() == number)
    }

    fn reason(self) -> &'static str {
        match self {
            Refusal::Size => "no screen has this size",
            Refusal::Length => "the screen's buffers have another length than the screen",
            Refusal::Character => "a byte on the screen is no character",
            Refusal::Range => "a part of the session is out of its range",
            Refusal::Room => "the reply buffer is too short",
            Refusal::Guarded => "the cell is guarded",
            Refusal::Class => "the cell does not take this character",
            Refusal::Off => "option 20 is off",
            Refusal::NoMeaning => "the key has no meaning",
            Refusal::LineFull => "the edit line is full",
            Refusal::Mark => "a mark is neither 0 nor 1",
            Refusal::Edition => "the edition is neither 731 nor 732",
        }
    }
}

impl fmt::Display for Refusal {
    fn fmt(&self, f: &mut fmt::Formatter) -> fmt::Result {
        write!(f, "refusal {}: {}", self.number(), self.reason())
    }
}

impl Error for Refusal {}
