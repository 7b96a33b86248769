//! The reader of Telnet bytes. It knows nothing of screens.

use crate::variant::Variant;

pub const SE: u8 = 240;
pub const SB: u8 = 250;
pub const IAC: u8 = 255;

#[derive(Clone, Copy, Debug, PartialEq, Eq)]
pub enum Verb {
    Will = 251,
    Wont = 252,
    Do = 253,
    Dont = 254,
}

impl Verb {
    pub const ALL: [Verb; 4] = [Verb::Will, Verb::Wont, Verb::Do, Verb::Dont];

    pub fn byte(self) -> u8 {
        self as u8
    }

    fn named_by(byte: u8) -> Option<Verb> {
        Verb::ALL.into_iter().find(|verb| verb.byte() == byte)
    }
}

/// Where the reader stands between two bytes; the last two carry the
/// subnegotiation's option.
#[derive(Clone, Copy, Debug, Default, PartialEq, Eq)]
pub enum Phase {
    #[default]
    Data,
    Iac,
    Verb(Verb),
    Sb,
    SbIac,
    Sub(u8),
    SubIac(u8),
}

/// The first bytes after a subnegotiation's option byte. No command takes
/// more than five, so the sixth tells that there were too many.
#[derive(Clone, Copy, Debug, Default, PartialEq, Eq)]
pub struct Held {
    pub count: u8,
    pub bytes: [u8; Held::MOST],
}

impl Held {
    pub const MOST: usize = 6;

    pub fn sound(&self) -> bool {
        usize::from(self.count) <= Held::MOST
    }

    pub fn bytes(&self) -> &[u8] {
        &self.bytes[..usize::from(self.count).min(Held::MOST)]
    }

    fn hold(&mut self, byte: u8, variant: Variant) {
        let most = match variant {
            Variant::CountPast6 => u8::MAX,
            Variant::CountStopsAt5 => 5,
            _ => Held::MOST as u8,
        };
        if self.count < most {
            if let Some(place) = self.bytes.get_mut(usize::from(self.count)) {
                *place = byte;
            }
            self.count += 1;
        }
    }
}

/// A subnegotiation as far as it was read.
#[derive(Clone, Debug, PartialEq, Eq)]
pub struct Sub {
    /// Missing if no byte came.
    pub option: Option<u8>,
    pub held: Held,
    /// All bytes after the option byte, however many.
    pub message: Vec<u8>,
}

/// What one byte completed.
#[derive(Clone, Debug, PartialEq, Eq)]
pub enum Heard {
    Nothing,
    Data(u8),
    Negotiation(Verb, u8),
    /// Ended by IAC SE.
    Subnegotiation(Sub),
    ThrownAway(Sub),
}

#[derive(Clone, Debug, Default, PartialEq, Eq)]
pub struct Reader {
    pub phase: Phase,
    pub held: Held,
    pub message: Vec<u8>,
}

impl Reader {
    pub fn step(&mut self, byte: u8, variant: Variant) -> Heard {
        match self.phase {
            Phase::Data if byte == IAC => self.turn(Phase::Iac),
            Phase::Data => Heard::Data(byte),
            Phase::Iac => self.command(byte),
            Phase::Verb(verb) => self.option(verb, byte, variant),
            Phase::Sb if byte == IAC => self.turn(Phase::SbIac),
            Phase::Sb => self.begin(byte, variant),
            Phase::SbIac if byte == IAC => self.begin(IAC, variant),
            Phase::SbIac => self.leave(None, byte, variant),
            Phase::Sub(option) if byte == IAC => self.turn(Phase::SubIac(option)),
            Phase::Sub(option) => self.hold(option, byte, variant),
            Phase::SubIac(option) if byte == IAC => self.hold(option, IAC, variant),
            Phase::SubIac(option) => self.leave(Some(option), byte, variant),
        }
    }

    fn turn(&mut self, phase: Phase) -> Heard {
        self.phase = phase;
        Heard::Nothing
    }

    /// The byte after an IAC outside a subnegotiation.
    fn command(&mut self, byte: u8) -> Heard {
        self.phase = match (byte, Verb::named_by(byte)) {
            (_, Some(verb)) => Phase::Verb(verb),
            (SB, _) => Phase::Sb,
            _ => Phase::Data,
        };
        match byte {
            IAC => Heard::Data(IAC),
            _ => Heard::Nothing,
        }
    }

    /// Any byte is an option here, 255 too.
    fn option(&mut self, verb: Verb, byte: u8, variant: Variant) -> Heard {
        if variant == Variant::Option255IsIac && byte == IAC {
            return self.turn(Phase::Iac);
        }
        self.phase = Phase::Data;
        Heard::Negotiation(verb, byte)
    }

    /// The count is of bytes after the option byte: there are none yet.
    fn begin(&mut self, option: u8, variant: Variant) -> Heard {
        if variant != Variant::HeldKeptAtOption {
            self.held = Held::default();
        }
        self.turn(Phase::Sub(option))
    }

    fn hold(&mut self, option: u8, byte: u8, variant: Variant) -> Heard {
        if variant == Variant::SubIacIacTwice && byte == IAC {
            self.hold_once(byte, variant);
        }
        self.hold_once(byte, variant);
        self.turn(Phase::Sub(option))
    }

    fn hold_once(&mut self, byte: u8, variant: Variant) {
        self.held.hold(byte, variant);
        self.message.push(byte);
    }

    /// IAC SE ends a subnegotiation; after IAC any other command throws it
    /// away and is then obeyed as outside.
    fn leave(&mut self, option: Option<u8>, byte: u8, variant: Variant) -> Heard {
        let sub = Sub {
            option,
            held: self.held,
            message: std::mem::take(&mut self.message),
        };
        if byte == SE {
            if variant != Variant::HeldKeptAfterEnd {
                self.held = Held::default();
            }
            self.phase = Phase::Data;
            return Heard::Subnegotiation(sub);
        }
        if variant != Variant::HeldKeptAfterThrow {
            self.held = Held::default();
        }
        match variant {
            Variant::ThrownSwallowsCommand => self.phase = Phase::Data,
            Variant::SbInsideNotAnew if byte == SB => self.phase = Phase::Data,
            _ => _ = self.command(byte),
        }
        Heard::ThrownAway(sub)
    }
}
