//! The reply bytes of one call.

use crate::edition::Edition;
use crate::telnet::{Verb, IAC, SB, SE};
use crate::variant::Variant;

/// The option's number.
pub const DET: u8 = 20;

pub struct Reply<'a> {
    buffer: &'a mut [u8],
    written: usize,
    /// Whose codes the subcommands have.
    pub edition: Edition,
    variant: Variant,
}

impl<'a> Reply<'a> {
    pub fn new(buffer: &'a mut [u8], edition: Edition, variant: Variant) -> Reply<'a> {
        Reply {
            buffer,
            written: 0,
            edition,
            variant,
        }
    }

    pub fn free(&self) -> usize {
        self.buffer.len() - self.written
    }

    pub fn written(&self) -> usize {
        self.written
    }

    /// Screen characters as they stand: none of them is 255. The room rule
    /// keeps replies within the buffer; only a wrong variant is cut short.
    pub fn data(&mut self, bytes: &[u8]) {
        let length = bytes.len().min(self.free());
        self.buffer[self.written..][..length].copy_from_slice(&bytes[..length]);
        self.written += length;
    }

    /// An option byte 255 stays single, as it was read.
    pub fn negotiation(&mut self, verb: Verb, option: u8) {
        self.data(&[IAC, verb.byte(), option]);
        if self.variant == Variant::Option255Doubled && option == IAC {
            self.data(&[IAC]);
        }
    }

    pub fn subcommand(&mut self, meaning: u8, parameters: &[u8]) {
        let code = self.edition.write(meaning, self.variant);
        let bytes = [&[code], parameters].concat();
        self.message(DET, &bytes, Variant::Error255Single);
    }

    /// IAC SB, the option, the bytes with 255 doubled, IAC SE.
    pub fn message(&mut self, option: u8, bytes: &[u8], single: Variant) {
        self.data(&[IAC, SB, option]);
        for &byte in bytes {
            self.data(&[byte]);
            if byte == IAC && self.variant != single {
                self.data(&[IAC]);
            }
        }
        self.data(&[IAC, SE]);
    }
}
