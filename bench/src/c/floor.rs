//! The floor of `floor.c`.

extern "C" {
    fn floor_memchr(input: *const u8, length: usize) -> usize;
    fn floor_memcpy(to: *mut u8, input: *const u8, length: usize);
}

/// How many IACs there are.
pub fn memchr(input: &[u8]) -> usize {
    // SAFETY: a slice is valid for its length.
    unsafe { floor_memchr(input.as_ptr(), input.len()) }
}

pub fn memcpy(to: &mut [u8], input: &[u8]) {
    assert!(input.len() <= to.len(), "there is no room");
    // SAFETY: both are valid for the length, and borrowed apart.
    unsafe { floor_memcpy(to.as_mut_ptr(), input.as_ptr(), input.len()) }
}
