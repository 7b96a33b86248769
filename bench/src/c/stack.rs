//! The stack that a call uses, by `stack.c`.

use std::ffi::c_int;

use host::terminal::SESSION_LENGTH;

use crate::ours::Ours;

/// As `stack.c` has it.
#[repr(C)]
struct Lent {
    session: *mut u8,
    chars: *mut u8,
    attrs: *mut u8,
    marks: *mut u8,
    reply: *mut u8,
    input: *const u8,
    width: usize,
    height: usize,
    room: usize,
    length: usize,
    key: u32,
}

extern "C" {
    fn stack_reached(
        call: c_int,
        real: c_int,
        paint: c_int,
        with: *const Lent,
        answer: *mut u8,
    ) -> usize;
}

/// One call.
#[derive(Clone, Copy)]
pub enum Call<'a> {
    Open,
    Host(&'a [u8]),
    Key(u32),
}

const RETURN_ADDRESS: usize = 8;

/// The bytes of stack that a call uses on this screen, its return address
/// among them; none where it is refused. Its arguments are the caller's.
pub fn used(call: Call, screen: &Ours) -> Option<usize> {
    // Once before, lest the system's own first steps be counted.
    reached(call, screen, true, 0)?;
    let deepest = |real| {
        // Twice, since a byte that is written may have the paint's value.
        let paints = [0xa5, 0x5a].into_iter();
        paints
            .filter_map(|paint| reached(call, screen, real, paint))
            .max()
    };
    Some(deepest(true)? - deepest(false)? + RETURN_ADDRESS)
}

/// None where the terminal's answer is a refusal.
fn reached(call: Call, screen: &Ours, real: bool, paint: c_int) -> Option<usize> {
    let mut ours = screen.clone();
    let mut session: [u8; SESSION_LENGTH] = *ours.session.as_bytes();
    let (number, input, key) = match call {
        Call::Open => (0, &[][..], 0),
        Call::Host(input) => (1, input, 0),
        Call::Key(key) => (2, &[][..], key),
    };
    let lent = Lent {
        session: session.as_mut_ptr(),
        chars: ours.chars.as_mut_ptr(),
        attrs: ours.attrs.as_mut_ptr(),
        marks: ours.marks.as_mut_ptr(),
        reply: ours.reply.as_mut_ptr(),
        input: input.as_ptr(),
        width: ours.session.width(),
        height: ours.session.height(),
        room: ours.reply.len(),
        length: input.len(),
        key,
    };
    let mut answer = 0;
    // SAFETY: the pointers are to buffers that live on, of the lengths that go
    // with them; there is one thread, and the call has a stack of 64 KiB.
    let depth = unsafe { stack_reached(number, real.into(), paint, &lent, &mut answer) };
    (!real || answer == 0).then_some(depth)
}
