//! The comparison with another program.

mod arguments;
mod cut;
mod pieces;
mod program;
