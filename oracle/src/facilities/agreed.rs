//! What both sides have agreed on.

use super::{class, own, Bit, Map, MAPS};
use crate::command::code;
use crate::edition::Edition;
use crate::variant::Variant;

/// For each map the bits that were both received and sent. The default is
/// how open and DONT 20 leave it: nothing is agreed.
#[derive(Clone, Copy, Debug, Default, PartialEq, Eq)]
pub struct Agreed(pub [u8; MAPS]);

impl Agreed {
    pub fn has(self, bit: Bit) -> bool {
        self.0[bit.0 as usize] & bit.mask() != 0
    }

    pub fn nothing(self) -> bool {
        self == Agreed::default()
    }

    /// A facility command's maps: they replace what its class had before.
    pub fn receive(&mut self, code: u8, received: &[u8], edition: Edition, variant: Variant) {
        let before = self.0;
        if variant == Variant::MapsForgetOthers {
            *self = Agreed::default();
        }
        for (place, &map) in class(code).zip(received) {
            let new = intersection(map, own(place, edition, variant), place, variant);
            let old = before[place];
            self.0[place] = match variant {
                Variant::MapsAccumulate => old | new,
                Variant::MapsOnlyNarrow if old != 0 => old & new,
                Variant::MapsFirstCounts if old != 0 => old,
                _ => new,
            };
        }
        if variant == Variant::MapsFormatExchanged && code == code::FORMAT_FACILITIES {
            self.0.swap(Map::Format0 as usize, Map::Format1 as usize);
        }
    }

    /// DONT 20: nothing is agreed any more.
    pub fn forget(&mut self, variant: Variant) {
        let kept = match variant {
            Variant::DontKeepsMaps => 0..MAPS,
            Variant::DontKeepsEdit => class(code::EDIT_FACILITIES),
            Variant::DontKeepsErase => class(code::ERASE_FACILITIES),
            Variant::DontKeepsTransmit => class(code::TRANSMIT_FACILITIES),
            Variant::DontKeepsFormat => class(code::FORMAT_FACILITIES),
            _ => 0..0,
        };
        for place in (0..MAPS).filter(|place| !kept.contains(place)) {
            self.0[place] = 0;
        }
    }
}

/// Bit by bit, the intensity bits too.
fn intersection(received: u8, own: u8, place: usize, variant: Variant) -> u8 {
    let both = received & own;
    match variant {
        Variant::MapsReceived => received,
        Variant::MapsOwn => own,
        Variant::MapsFromLeft => received.reverse_bits() & own,
        Variant::IntensityMinimum if place == Map::Format1 as usize => {
            both & !INTENSITY | (received & INTENSITY).min(own & INTENSITY)
        }
        _ => both,
    }
}

const INTENSITY: u8 = 0b111;
