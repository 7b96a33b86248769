//! libvterm as a screen that takes whole buffers, by `peers/vterm.c`.

pub const PACKAGE: &str = "libvterm-dev";

#[cfg(vterm)]
pub use linked::Libvterm;

#[cfg(vterm)]
mod linked {
    use std::ffi::{c_int, c_void};
    use std::ptr::NonNull;

    use crate::size::Size;

    extern "C" {
        fn peer_vterm_new(lines: c_int, columns: c_int) -> *mut c_void;
        fn peer_vterm_take(vterm: *mut c_void, input: *const u8, length: usize);
        fn peer_vterm_cell(vterm: *mut c_void, line: c_int, column: c_int) -> u8;
        fn peer_vterm_free(vterm: *mut c_void);
    }

    pub struct Libvterm(NonNull<c_void>);

    impl Libvterm {
        pub fn new(size: Size) -> Option<Libvterm> {
            let (lines, columns) = (size.lines as c_int, size.columns as c_int);
            // SAFETY: takes any size that is above 0.
            NonNull::new(unsafe { peer_vterm_new(lines, columns) }).map(Libvterm)
        }

        pub fn take(&mut self, input: &[u8]) {
            // SAFETY: the terminal lives, and a slice is valid for its length.
            unsafe { peer_vterm_take(self.0.as_ptr(), input.as_ptr(), input.len()) }
        }

        /// The character of a cell, 0 where nothing was written.
        pub fn cell(&mut self, line: usize, column: usize) -> u8 {
            // SAFETY: the terminal lives; it knows its own size.
            unsafe { peer_vterm_cell(self.0.as_ptr(), line as c_int, column as c_int) }
        }
    }

    impl Drop for Libvterm {
        fn drop(&mut self) {
            // SAFETY: nobody uses the terminal afterwards.
            unsafe { peer_vterm_free(self.0.as_ptr()) }
        }
    }
}

/// Not installed: there is none.
#[cfg(not(vterm))]
pub enum Libvterm {}

#[cfg(not(vterm))]
impl Libvterm {
    pub fn new(_: crate::size::Size) -> Option<Libvterm> {
        None
    }

    pub fn take(&mut self, _: &[u8]) {
        match *self {}
    }

    pub fn cell(&mut self, _: usize, _: usize) -> u8 {
        match *self {}
    }
}
