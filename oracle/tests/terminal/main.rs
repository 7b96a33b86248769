//! The terminal's rules, call by call.

mod bench;
mod editions;
mod facilities;
mod lines;
mod marks;
mod pad_echo;
mod pad_line;
mod pad_messages;
mod pad_switch;
mod rules;
mod worked;
