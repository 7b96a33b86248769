//! What a terminal keeps from one call to the next.

use crate::edition::Edition;
use crate::facilities::Agreed;
use crate::pad::{self, Pad};
use crate::size::{Position, Size};
use crate::telnet::Reader;
use crate::variant::Variant;

/// The default is the session that a refused open returns: size 0 by 0,
/// September's edition, options off, protection in effect, nothing half
/// read, nothing agreed.
#[derive(Clone, Debug, Default, PartialEq, Eq)]
pub struct Session {
    pub size: Size,
    pub cursor: Position,
    pub edition: Edition,
    pub det: bool,
    pub suppressed: bool,
    pub agreed: Agreed,
    pub pad: Pad,
    pub reader: Reader,
}

impl Session {
    /// False where the cursor is off the screen, the held count too high, or
    /// option 30 on where a full line would not fit the reply room.
    pub fn sound(&self, variant: Variant) -> bool {
        let fits = pad::fits(self.size.cells(), variant) || variant == Variant::PadSmallTaken;
        self.size.holds(self.cursor) && self.reader.held.sound() && (fits || !self.pad.on)
    }

    /// Whether the edit line takes the key.
    pub fn line_takes(&self, key: u8, variant: Variant) -> bool {
        let text = key <= 127 || variant == Variant::LineTakesAllKeys;
        text && self.pad.works(self.det, variant)
    }
}
