//! The terminal of `include/det.h` for Rust programs.

pub mod raw;
pub mod refusal;
pub mod terminal;

pub mod replay;
pub mod script;
