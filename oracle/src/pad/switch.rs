//! The option switched on and off.

use super::{fits, PAD};
use crate::desk::Desk;
use crate::telnet::Verb;
use crate::variant::Variant;

impl Desk<'_> {
    /// DO 30: declined on a screen whose reply room a full line exceeds.
    pub fn pad_on(&mut self) {
        if !fits(self.screen.cells(), self.variant) {
            return self.reply.negotiation(Verb::Wont, PAD);
        }
        if self.varies(Variant::Do30NeedsDetOff) && self.det {
            return self.reply.negotiation(Verb::Wont, PAD);
        }
        if !self.pad.on || self.varies(Variant::Do30Again) {
            self.reply.negotiation(Verb::Will, PAD);
        }
        if !self.pad.on && self.varies(Variant::Do30StartsAfresh) {
            self.pad.parameters = Default::default();
        }
        self.pad.on = true;
    }

    /// DONT 30: the line is lost; protection and parameters stay.
    pub fn pad_off(&mut self) {
        if self.pad.on || self.varies(Variant::Dont30Again) {
            self.reply.negotiation(Verb::Wont, PAD);
        }
        if !self.pad.on && !self.varies(Variant::Dont30OffEmpties) {
            return;
        }
        match self.variant {
            Variant::Dont30SendsLine => self.send_line(),
            Variant::Dont30EmptiesMaps => self.agreed = Default::default(),
            Variant::Dont30EndsSuppression => self.screen.suppressed = false,
            Variant::Dont30StartsAfresh => self.pad.parameters = Default::default(),
            _ => {}
        }
        if !self.varies(Variant::Dont30KeepsLine) {
            self.pad.line.clear();
        }
        self.pad.on = false;
    }
}
