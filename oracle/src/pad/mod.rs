//! Option 30: an X.3 PAD, which edits typed text in a line of its own
//! while DET is off.

mod echo;
pub mod line;
pub mod message;
mod output;
pub mod parameters;
pub mod sets;
mod signal;
pub mod stroke;
mod switch;
mod typing;

use crate::variant::Variant;
use line::EditLine;
use parameters::Parameters;

/// The option's number.
pub const PAD: u8 = 30;

pub const BS: u8 = 8;
pub const LF: u8 = 10;
pub const CR: u8 = 13;

/// What a session keeps for the option. The default is how open leaves it.
#[derive(Clone, Debug, Default, PartialEq, Eq)]
pub struct Pad {
    pub on: bool,
    pub line: EditLine,
    pub parameters: Parameters,
    /// Whether the host's last data byte was CR.
    pub after_cr: bool,
}

/// Whether a full line fits the reply room of so many cells.
pub fn fits(cells: usize, variant: Variant) -> bool {
    let least = match variant {
        Variant::Pad29Cells => 29,
        Variant::Pad36Cells => 36,
        Variant::Pad38Cells => 38,
        _ => 37,
    };
    cells >= least
}

impl Pad {
    /// Whether it works: the line takes the keys, and host text is seen
    /// through parameter 13.
    pub fn works(&self, det: bool, variant: Variant) -> bool {
        self.on && (!det || variant == Variant::PadWithDet)
    }
}
