//! What a host says, as bytes.

pub const IAC: u8 = 255;
pub const SE: u8 = 240;
const DO: u8 = 253;
const SB: u8 = 250;

/// The options by their numbers.
pub const DET: u8 = 20;
pub const PAD: u8 = 30;

pub fn turn_on(option: u8) -> Vec<u8> {
    vec![IAC, DO, option]
}

/// For bytes without an IAC, which would have to be doubled.
pub fn subnegotiation(option: u8, bytes: &[u8]) -> Vec<u8> {
    [&[IAC, SB, option], bytes, &[IAC, SE]].concat()
}
