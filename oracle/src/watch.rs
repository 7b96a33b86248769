//! What an onlooker is told while a call runs. The terminal itself never
//! depends on it.

use crate::edition::Edition;
use crate::facilities::Agreed;
use crate::pad::Pad;
use crate::screen::Screen;
use crate::size::{X, Y};
use crate::telnet::{Sub, Verb};

#[derive(Clone, Copy, Debug)]
pub enum Event<'a> {
    Data(u8),
    Negotiation(Verb, u8),
    /// An ended one.
    Subnegotiation(&'a Sub),
    ThrownAway(&'a Sub),
    /// A command that draws no ERROR, by its meaning, with its parameters.
    Executed(u8, &'a [u8]),
    /// A command by its code, the number of the ERROR that it draws, its
    /// parameters.
    Error(u8, u8, &'a [u8]),
    /// MOVE CURSOR off the screen.
    Limited(X, Y),
    Key(u8),
}

/// The terminal as it is before an event.
#[derive(Clone, Copy)]
pub struct Sight<'a> {
    pub screen: &'a Screen<'a>,
    pub edition: Edition,
    pub det: bool,
    pub agreed: Agreed,
    pub pad: &'a Pad,
}

pub trait Watch {
    /// Called before the event has any effect on what is seen.
    fn saw(&mut self, event: Event, sight: Sight);
}

/// Nobody looks on.
pub struct Unwatched;

impl Watch for Unwatched {
    fn saw(&mut self, _: Event, _: Sight) {}
}
