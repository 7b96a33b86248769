//! The three functions of `include/det.h` as they are there, but for slices
//! in place of pointers and lengths. Nothing else in this crate is unsafe.
//!
//! The library asks two things of its caller. Every pointer is to be valid
//! for its length and not null: a slice's is, also an empty one's. And no two
//! things given to a call may overlap: a `&mut` never overlaps anything else
//! that is borrowed at the time.

#![allow(unsafe_code)]

extern "C" {
    fn det_open(
        width: usize,
        height: usize,
        edition: usize,
        chars: *mut u8,
        chars_len: usize,
        attrs: *mut u8,
        attrs_len: usize,
        marks: *mut u8,
        marks_len: usize,
        session: *mut u8,
        session_len: usize,
    ) -> u8;

    fn det_host(
        session: *mut u8,
        session_len: usize,
        input: *const u8,
        input_len: usize,
        chars: *mut u8,
        chars_len: usize,
        attrs: *mut u8,
        attrs_len: usize,
        marks: *mut u8,
        marks_len: usize,
        reply: *mut u8,
        reply_len: usize,
        taken: *mut usize,
        written: *mut usize,
    ) -> u8;

    fn det_key(
        session: *mut u8,
        session_len: usize,
        key: u32,
        chars: *mut u8,
        chars_len: usize,
        attrs: *const u8,
        attrs_len: usize,
        marks: *mut u8,
        marks_len: usize,
        reply: *mut u8,
        reply_len: usize,
        taken: *mut usize,
        written: *mut usize,
    ) -> u8;
}

/// `det_open`.
pub fn open(
    width: usize,
    height: usize,
    edition: usize,
    chars: &mut [u8],
    attrs: &mut [u8],
    marks: &mut [u8],
    session: &mut [u8],
) -> u8 {
    // SAFETY: the pointers and lengths are slices', borrowed apart.
    unsafe {
        det_open(
            width,
            height,
            edition,
            chars.as_mut_ptr(),
            chars.len(),
            attrs.as_mut_ptr(),
            attrs.len(),
            marks.as_mut_ptr(),
            marks.len(),
            session.as_mut_ptr(),
            session.len(),
        )
    }
}

/// `det_host`.
#[allow(clippy::too_many_arguments)]
pub fn host(
    session: &mut [u8],
    input: &[u8],
    chars: &mut [u8],
    attrs: &mut [u8],
    marks: &mut [u8],
    reply: &mut [u8],
    taken: &mut usize,
    written: &mut usize,
) -> u8 {
    // SAFETY: the pointers and lengths are slices' and references', borrowed
    // apart; what is borrowed shared is only read.
    unsafe {
        det_host(
            session.as_mut_ptr(),
            session.len(),
            input.as_ptr(),
            input.len(),
            chars.as_mut_ptr(),
            chars.len(),
            attrs.as_mut_ptr(),
            attrs.len(),
            marks.as_mut_ptr(),
            marks.len(),
            reply.as_mut_ptr(),
            reply.len(),
            taken,
            written,
        )
    }
}

/// `det_key`.
#[allow(clippy::too_many_arguments)]
pub fn key(
    session: &mut [u8],
    key: u32,
    chars: &mut [u8],
    attrs: &[u8],
    marks: &mut [u8],
    reply: &mut [u8],
    taken: &mut usize,
    written: &mut usize,
) -> u8 {
    // SAFETY: as for `det_host`.
    unsafe {
        det_key(
            session.as_mut_ptr(),
            session.len(),
            key,
            chars.as_mut_ptr(),
            chars.len(),
            attrs.as_ptr(),
            attrs.len(),
            marks.as_mut_ptr(),
            marks.len(),
            reply.as_mut_ptr(),
            reply.len(),
            taken,
            written,
        )
    }
}
