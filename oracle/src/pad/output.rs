//! Host text as parameter 13 lets it be seen: of CR LF only the CR, unless
//! line feeds are asked for.

use super::parameters::{line_feed, number};
use super::{CR, LF};
use crate::desk::Desk;
use crate::variant::Variant;

impl Desk<'_> {
    pub fn host_text(&mut self, byte: u8) {
        let swallowed = byte == LF && self.swallows_line_feed();
        self.pad.after_cr = match self.variant {
            Variant::LfSwallowedAgain if swallowed => true,
            Variant::CrOnlyWhileWorking => byte == CR && self.pad.works(self.det, self.variant),
            _ => byte == CR,
        };
        if !swallowed {
            self.screen.text(byte);
        }
    }

    /// Whether a line feed that comes now belongs to a CR and is not wanted.
    fn swallows_line_feed(&self) -> bool {
        let works = match self.variant {
            Variant::LfSwallowedWithDet => self.pad.on,
            Variant::LfSwallowedWithout30 => !self.det,
            Variant::LfNeverSwallowed => false,
            _ => self.pad.works(self.det, self.variant),
        };
        let wanted = self
            .pad
            .parameters
            .has(number::LINE_FEEDS, line_feed::ON_OUTPUT);
        works && self.pad.after_cr && wanted == self.varies(Variant::LfBitReversed)
    }
}
