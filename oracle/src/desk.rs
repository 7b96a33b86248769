//! One call at work: bytes heard, options negotiated, data written.

use crate::edition::Edition;
use crate::facilities::Agreed;
use crate::pad::{Pad, PAD};
use crate::reply::{Reply, DET};
use crate::screen::Screen;
use crate::session::Session;
use crate::telnet::{Heard, Phase, Reader, Sub, Verb};
use crate::terminal::Lent;
use crate::variant::Variant;
use crate::watch::{Event, Sight, Watch};

pub struct Desk<'a> {
    pub screen: Screen<'a>,
    pub reply: Reply<'a>,
    pub edition: Edition,
    pub det: bool,
    pub agreed: Agreed,
    pub pad: Pad,
    reader: Reader,
    pub variant: Variant,
    watch: &'a mut dyn Watch,
}

impl<'a> Desk<'a> {
    pub fn new(
        session: &Session,
        lent: Lent<'a>,
        variant: Variant,
        watch: &'a mut dyn Watch,
    ) -> Desk<'a> {
        let screen = Screen {
            size: session.size,
            cursor: session.cursor,
            suppressed: session.suppressed,
            chars: lent.buffers.chars,
            attrs: lent.buffers.attrs,
            marks: lent.buffers.marks,
            variant,
        };
        let mut pad = session.pad.clone();
        if variant == Variant::CrForgottenByCalls {
            pad.after_cr = false;
        }
        Desk {
            screen,
            reply: Reply::new(lent.reply, session.edition, variant),
            edition: session.edition,
            det: session.det,
            agreed: session.agreed,
            pad,
            reader: session.reader.clone(),
            variant,
            watch,
        }
    }

    /// The session after the call, and the reply bytes written.
    pub fn close(self) -> (Session, usize) {
        let session = Session {
            size: self.screen.size,
            cursor: self.screen.cursor,
            edition: self.edition,
            det: self.det,
            suppressed: self.screen.suppressed,
            agreed: self.agreed,
            pad: self.pad,
            reader: self.reader,
        };
        (session, self.reply.written())
    }

    pub fn varies(&self, variant: Variant) -> bool {
        self.variant == variant
    }

    pub fn saw(&mut self, event: Event) {
        let sight = Sight {
            screen: &self.screen,
            edition: self.edition,
            det: self.det,
            agreed: self.agreed,
            pad: &self.pad,
        };
        self.watch.saw(event, sight);
    }

    pub fn take(&mut self, byte: u8) {
        match self.reader.step(byte, self.variant) {
            Heard::Nothing => self.half_read(),
            Heard::Data(byte) => self.data(byte),
            Heard::Negotiation(verb, option) => self.negotiate(verb, option),
            Heard::Subnegotiation(sub) => self.subnegotiation(&sub),
            Heard::ThrownAway(sub) => self.saw(Event::ThrownAway(&sub)),
        }
    }

    /// Nothing is done before its end, but for wrong variants.
    fn half_read(&mut self) {
        if self.varies(Variant::PairsAsRead) && self.reader.phase == Phase::Sub(PAD) {
            let message = self.reader.message.clone();
            self.pad_as_read(&message);
        }
        if self.varies(Variant::CrForgottenByCommands) {
            self.pad.after_cr = false;
        }
    }

    fn negotiate(&mut self, verb: Verb, option: u8) {
        self.saw(Event::Negotiation(verb, option));
        match verb {
            Verb::Do if option == DET => self.turn_on(),
            Verb::Do if option == PAD => self.pad_on(),
            Verb::Do => self.reply.negotiation(Verb::Wont, option),
            Verb::Dont if option == DET => self.turn_off(),
            Verb::Dont if option == PAD => self.pad_off(),
            Verb::Will if option == DET && self.varies(Variant::Will20Accepted) => {
                self.reply.negotiation(Verb::Do, option)
            }
            Verb::Will => self.reply.negotiation(Verb::Dont, option),
            Verb::Wont if self.varies(Variant::WontAnswered) => {
                self.reply.negotiation(Verb::Dont, option)
            }
            Verb::Wont if option == DET && self.varies(Variant::WontEmptiesMaps) => {
                self.agreed = Agreed::default()
            }
            Verb::Wont | Verb::Dont => {}
        }
    }

    fn turn_on(&mut self) {
        if !self.det || self.varies(Variant::Do20Again) {
            self.reply.negotiation(Verb::Will, DET);
        }
        match self.variant {
            Variant::DetEmptiesLine => self.pad.line.clear(),
            Variant::DoEmptiesMaps if !self.det => self.agreed = Agreed::default(),
            Variant::DoAgainEmptiesMaps => self.agreed = Agreed::default(),
            _ => {}
        }
        self.det = true;
    }

    /// While off already, not even suppression ends or an agreement.
    fn turn_off(&mut self) {
        if self.det || self.varies(Variant::Dont20Again) {
            self.reply.negotiation(Verb::Wont, DET);
        }
        if self.det && !self.varies(Variant::DontKeepsSuppression) {
            self.screen.suppressed = false;
        }
        if self.det && self.varies(Variant::DontEndsJune) {
            self.edition = Edition::September;
        }
        if self.det && self.varies(Variant::DontClearsMarks) {
            self.screen.clear_marks();
        }
        if self.det || self.varies(Variant::DontOffEmptiesMaps) {
            self.agreed.forget(self.variant);
        }
        self.det = false;
    }

    fn subnegotiation(&mut self, sub: &Sub) {
        self.saw(Event::Subnegotiation(sub));
        if sub.option == Some(PAD) && self.hears_pad() {
            self.pad_message(sub);
        }
        let ours = match sub.option {
            Some(option) => option == DET || self.varies(Variant::OtherOptionObeyed),
            None => self.varies(Variant::NoOptionObeyed),
        };
        if ours && (self.det || self.varies(Variant::DetOffObeyed)) {
            self.obey(sub.held.bytes());
        } else if ours {
            self.note_while_off(sub.held.bytes());
        }
    }

    /// Whether option 30's messages are obeyed: DET has no say in it.
    fn hears_pad(&self) -> bool {
        match self.variant {
            Variant::PadOffObeyed => true,
            Variant::PadDeafWithDet => self.pad.on && !self.det,
            _ => self.pad.on,
        }
    }

    fn data(&mut self, byte: u8) {
        self.saw(Event::Data(byte));
        self.host_text(byte);
    }
}
