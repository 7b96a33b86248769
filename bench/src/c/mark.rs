//! The marks of `mark.c`.

mod marks {
    extern "C" {
        pub fn count_from_here();
        pub fn count_to_here();
    }
}

pub fn from_here() {
    // SAFETY: it does nothing.
    unsafe { marks::count_from_here() }
}

pub fn to_here() {
    // SAFETY: it does nothing.
    unsafe { marks::count_to_here() }
}
