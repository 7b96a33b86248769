//! The option's subnegotiations: parameters set and told.

use super::parameters::{admits, Parameters};
use super::PAD;
use crate::desk::Desk;
use crate::telnet::Sub;
use crate::variant::Variant;

pub mod code {
    pub const SET: u8 = 0;
    pub const RESPONSE_SET: u8 = 1;
    pub const IS: u8 = 2;
    pub const RESPONSE_IS: u8 = 3;
    pub const SEND: u8 = 4;
}

impl Desk<'_> {
    /// A message that has ended while the option is on. One with an odd
    /// byte at its end is ignored whole.
    pub fn pad_message(&mut self, sub: &Sub) {
        let message = match self.variant {
            Variant::MessageOfSix => sub.held.bytes(),
            _ => &sub.message,
        };
        let Some((&code, pairs)) = message.split_first() else {
            return;
        };
        let odd = pairs.len() % 2 == 1;
        if odd && !self.varies(Variant::OddMessageObeyed) {
            return;
        }
        match code {
            code::RESPONSE_SET if self.varies(Variant::ResponseSetIgnored) => {}
            code::SET | code::RESPONSE_SET => self.pad_set(pairs),
            code::IS if self.varies(Variant::IsObeyed) => self.pad_set(pairs),
            code::SEND if self.varies(Variant::SendStrict) && !pairs.is_empty() => {}
            code::SEND => self.response_is(),
            5.. if self.varies(Variant::UnknownCodeSets) => self.pad_set(pairs),
            // IS and RESPONSE-IS are ours to send.
            _ => {}
        }
    }

    fn pad_set(&mut self, pairs: &[u8]) {
        let before = self.pad.parameters.clone();
        let mut named = Vec::new();
        for pair in pairs.chunks_exact(2) {
            let (number, value) = (pair[0], pair[1]);
            if self.ends_message(number, value) {
                break;
            }
            if self.varies(Variant::FirstPairCounts) && named.contains(&number) {
                continue;
            }
            named.push(number);
            self.set_parameter(&before, number, value);
        }
    }

    fn set_parameter(&mut self, before: &Parameters, number: u8, value: u8) {
        if self.varies(Variant::PairsBySetBefore) && !before.known(number) {
            return;
        }
        self.pad.parameters.set(number, value, self.variant);
    }

    /// Whether a variant leaves the rest of the pairs.
    fn ends_message(&self, number: u8, value: u8) -> bool {
        let known = self.pad.parameters.known(number);
        match self.variant {
            Variant::BadValueEnds => known && !admits(number, value, self.variant),
            Variant::LackedEnds => !known,
            _ => false,
        }
    }

    /// The answer to SEND, with 255 doubled.
    fn response_is(&mut self) {
        let code = match self.variant {
            Variant::SendAnsweredIs => code::IS,
            _ => code::RESPONSE_IS,
        };
        let mut bytes = vec![code];
        for (number, value) in self.pad.parameters.told(self.variant) {
            bytes.extend([number, value]);
        }
        self.reply.message(PAD, &bytes, Variant::Told255Single);
    }

    /// A wrong one that does not wait for the message's end.
    pub fn pad_as_read(&mut self, message: &[u8]) {
        let length = message.len();
        if self.pad.on && length >= 3 && length % 2 == 1 && message[0] <= code::RESPONSE_SET {
            self.pad_set(&message[length - 2..]);
        }
    }
}
