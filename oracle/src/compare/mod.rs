//! Compares another program's answers with the right ones.

pub mod arguments;
pub mod crop;
pub mod cut;
pub mod difference;
pub mod numbers;
pub mod program;
pub mod run;
pub mod seeds;
pub mod shorten;
pub mod tally;
pub mod variants;
