//! The Telnet reader by itself, from `libtally.a`.

extern "C" {
    fn telnet_tally(
        input: *const u8,
        length: usize,
        data: *mut usize,
        negotiations: *mut usize,
        payload: *mut usize,
        ended: *mut usize,
    );
}

/// What a Telnet stream holds: its data bytes, and the bytes of its
/// subnegotiations after their option bytes.
#[derive(Clone, Copy, Debug, Default, PartialEq, Eq)]
pub struct Counts {
    pub data: usize,
    pub payload: usize,
}

pub fn tally(input: &[u8]) -> Counts {
    let mut counts = Counts::default();
    let (mut negotiations, mut ended) = (0, 0);
    // SAFETY: a slice's pointer and length, and places for four numbers, all
    // apart.
    unsafe {
        telnet_tally(
            input.as_ptr(),
            input.len(),
            &mut counts.data,
            &mut negotiations,
            &mut counts.payload,
            &mut ended,
        );
    }
    counts
}
