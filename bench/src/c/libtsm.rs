//! libtsm as a screen that takes whole buffers, by `peers/tsm.c`.

pub const PACKAGE: &str = "libtsm-dev";

#[cfg(tsm)]
pub use linked::Libtsm;

#[cfg(tsm)]
mod linked {
    use std::ffi::{c_uint, c_void};
    use std::ptr::NonNull;

    use crate::size::Size;

    extern "C" {
        fn peer_tsm_new(lines: c_uint, columns: c_uint) -> *mut c_void;
        fn peer_tsm_take(peer: *mut c_void, input: *const u8, length: usize);
        fn peer_tsm_cell(peer: *mut c_void, line: c_uint, column: c_uint) -> u8;
        fn peer_tsm_free(peer: *mut c_void);
    }

    pub struct Libtsm(NonNull<c_void>);

    impl Libtsm {
        pub fn new(size: Size) -> Option<Libtsm> {
            let (lines, columns) = (size.lines as c_uint, size.columns as c_uint);
            // SAFETY: takes any size that is above 0.
            NonNull::new(unsafe { peer_tsm_new(lines, columns) }).map(Libtsm)
        }

        pub fn take(&mut self, input: &[u8]) {
            // SAFETY: the peer lives, and a slice is valid for its length.
            unsafe { peer_tsm_take(self.0.as_ptr(), input.as_ptr(), input.len()) }
        }

        /// The character of a cell, 0 where nothing was written.
        pub fn cell(&mut self, line: usize, column: usize) -> u8 {
            // SAFETY: the peer lives; it knows its own size.
            unsafe { peer_tsm_cell(self.0.as_ptr(), line as c_uint, column as c_uint) }
        }
    }

    impl Drop for Libtsm {
        fn drop(&mut self) {
            // SAFETY: nobody uses the peer afterwards.
            unsafe { peer_tsm_free(self.0.as_ptr()) }
        }
    }
}

/// Not installed: there is none.
#[cfg(not(tsm))]
pub enum Libtsm {}

#[cfg(not(tsm))]
impl Libtsm {
    pub fn new(_: crate::size::Size) -> Option<Libtsm> {
        None
    }

    pub fn take(&mut self, _: &[u8]) {
        match *self {}
    }

    pub fn cell(&mut self, _: usize, _: usize) -> u8 {
        match *self {}
    }
}
