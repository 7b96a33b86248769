//! What is called in C, and where buffers start. Nothing else in this crate is
//! unsafe.

#![allow(unsafe_code)]

mod aligned;
pub mod floor;
pub mod libtelnet;
pub mod libtsm;
pub mod libvterm;
pub mod mark;
pub mod stack;
pub mod tally;
