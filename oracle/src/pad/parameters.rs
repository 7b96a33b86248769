//! The parameters that are held, and the values that they take.

use crate::variant::Variant;

pub mod number {
    pub const ECHO: u8 = 2;
    pub const FORWARDING: u8 = 3;
    pub const LINE_FEEDS: u8 = 13;
    pub const EDITING: u8 = 15;
    pub const CHARACTER_DELETE: u8 = 16;
    pub const LINE_DELETE: u8 = 17;
    pub const LINE_DISPLAY: u8 = 18;
    pub const SIGNALS: u8 = 19;
    pub const ECHO_MASK: u8 = 20;
    pub const EXTENSION_SET: u8 = 128;
    pub const WORD_DELETE: u8 = 129;
}

/// Bits of parameter 13.
pub mod line_feed {
    pub const ON_OUTPUT: u8 = 1;
    pub const ON_INPUT: u8 = 2;
    pub const IN_ECHO: u8 = 4;
}

/// Those held, in rising order.
pub const NUMBERS: [u8; 28] = [
    0, 1, 2, 3, 4, 5, 6, 7, 8, 9, 10, 11, 12, 13, 14, 15, 16, 17, 18, 19, 20, 21, 22, 128, 129,
    130, 131, 132,
];

/// The flow control characters, the only starts that are not 0.
const STARTS: [(u8, u8); 2] = [(130, 19), (131, 17)];

/// The values in force, in the order of their numbers.
#[derive(Clone, Debug, PartialEq, Eq)]
pub struct Parameters([u8; NUMBERS.len()]);

impl Default for Parameters {
    fn default() -> Parameters {
        let mut parameters = Parameters([0; NUMBERS.len()]);
        for (number, start) in STARTS {
            parameters.put(number, start);
        }
        parameters
    }
}

fn place(number: u8) -> Option<usize> {
    NUMBERS.iter().position(|&held| held == number)
}

impl Parameters {
    pub fn values(&self) -> &[u8] {
        &self.0
    }

    /// 0 for a parameter that is not held.
    pub fn get(&self, number: u8) -> u8 {
        place(number).map_or(0, |place| self.0[place])
    }

    pub fn has(&self, number: u8, bit: u8) -> bool {
        self.get(number) & bit != 0
    }

    fn put(&mut self, number: u8, value: u8) {
        if let Some(place) = place(number) {
            self.0[place] = value;
        }
    }

    /// Whether we have it now: 129 to 132 are there under extension set 1
    /// alone.
    pub fn known(&self, number: u8) -> bool {
        let extended = number > number::EXTENSION_SET;
        place(number).is_some() && (!extended || self.get(number::EXTENSION_SET) == 1)
    }

    /// One pair of a SET. What is not known or not admitted changes nothing.
    pub fn set(&mut self, number: u8, value: u8, variant: Variant) {
        let known = self.known(number) || variant == Variant::SetAnySet;
        if variant == Variant::SetForgetsExtensions && number == number::EXTENSION_SET {
            self.forget_extensions(value);
        }
        match (known, admits(number, value, variant)) {
            (true, true) => self.put(number, value),
            (true, false) if variant == Variant::BadValueIsZero => self.put(number, 0),
            _ => {}
        }
    }

    fn forget_extensions(&mut self, set: u8) {
        if set != self.get(number::EXTENSION_SET) {
            let start = Parameters::default();
            for number in 129..=132 {
                self.put(number, start.get(number));
            }
        }
    }

    /// What an answer names: each parameter that we have, and its value.
    pub fn told(&self, variant: Variant) -> impl Iterator<Item = (u8, u8)> + '_ {
        let named = move |number: &u8| match variant {
            Variant::TellsAllExtensions => true,
            Variant::TellsNoExtensions => *number <= number::EXTENSION_SET,
            Variant::TellsBareSet => self.known(*number) && *number != number::EXTENSION_SET,
            _ => self.known(*number),
        };
        NUMBERS
            .into_iter()
            .filter(named)
            .map(|number| (number, self.get(number)))
    }
}

/// The start, and what the parameter's list has. Parameter 4 takes 0 alone,
/// and of 6 there is no list.
pub fn admits(number: u8, value: u8, variant: Variant) -> bool {
    match (number, variant) {
        (4, Variant::Parameter4Any) => true,
        (6, Variant::Parameter6Any) => true,
        (1, Variant::Parameter1Controls) => value <= 126,
        (3, Variant::Parameter3Bit128) => true,
        (19, Variant::Parameter19Any) => value <= 126,
        (128, Variant::Parameter128Any) => true,
        (128, Variant::Parameter128No255) => value <= 1,
        (0 | 2 | 5 | 8 | 12 | 15 | 132, _) => value <= 1,
        (1, _) => matches!(value, 0 | 1 | 32..=126),
        (4 | 6, _) => value == 0,
        (7, _) => value <= 31,
        (9 | 13 | 14, _) => value <= 7,
        (11, _) => value <= 18,
        (3 | 16..=18 | 129..=131, _) => value <= 127,
        (10 | 20 | 22, _) => true,
        (19, _) => matches!(value, 0 | 1 | 2 | 8 | 32..=126),
        (21, _) => value <= 3,
        (128, _) => matches!(value, 0 | 1 | 255),
        _ => false,
    }
}
