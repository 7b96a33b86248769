//! libtelnet as a reader of whole buffers, by `peers/telnet.c`.

pub const PACKAGE: &str = "libtelnet-dev";

#[cfg(telnet)]
pub use linked::Libtelnet;

#[cfg(telnet)]
mod linked {
    use std::ffi::c_void;
    use std::ptr::NonNull;

    use crate::c::tally::Counts;

    extern "C" {
        fn peer_telnet_new() -> *mut c_void;
        fn peer_telnet_read(peer: *mut c_void, input: *const u8, length: usize);
        fn peer_telnet_counts(peer: *const c_void, data: *mut usize, payload: *mut usize);
        fn peer_telnet_free(peer: *mut c_void);
    }

    pub struct Libtelnet(NonNull<c_void>);

    impl Libtelnet {
        pub fn new() -> Option<Libtelnet> {
            // SAFETY: asks for nothing.
            NonNull::new(unsafe { peer_telnet_new() }).map(Libtelnet)
        }

        pub fn read(&mut self, input: &[u8]) {
            // SAFETY: the peer lives, and a slice is valid for its length.
            unsafe { peer_telnet_read(self.0.as_ptr(), input.as_ptr(), input.len()) }
        }

        /// Of all that was read.
        pub fn counts(&self) -> Counts {
            let mut counts = Counts::default();
            // SAFETY: the peer lives, and the two places are apart.
            unsafe {
                peer_telnet_counts(self.0.as_ptr(), &mut counts.data, &mut counts.payload);
            }
            counts
        }
    }

    impl Drop for Libtelnet {
        fn drop(&mut self) {
            // SAFETY: nobody uses the peer afterwards.
            unsafe { peer_telnet_free(self.0.as_ptr()) }
        }
    }
}

/// Not installed: there is none.
#[cfg(not(telnet))]
pub enum Libtelnet {}

#[cfg(not(telnet))]
impl Libtelnet {
    pub fn new() -> Option<Libtelnet> {
        None
    }

    pub fn read(&mut self, _: &[u8]) {
        match *self {}
    }

    pub fn counts(&self) -> crate::c::tally::Counts {
        match *self {}
    }
}
