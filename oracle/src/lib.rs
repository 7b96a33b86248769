//! The terminal end of a Telnet connection with options 20 (DET) and 30
//! (X.3 PAD), written to be compared with another one. The modules stand in
//! the scope's order.

pub mod size;

pub mod refusal;
pub mod session;
pub mod terminal;

pub mod reply;
pub mod telnet;

pub mod cursor;
pub mod screen;

pub mod command;
pub mod desk;
pub mod edition;
pub mod erase;
pub mod facilities;
pub mod format;
pub mod lines;
pub mod marks;
pub mod modified;
pub mod transmit;

pub mod class;
pub mod key;

pub mod pad;

pub mod replay;
pub mod script;

pub mod compare;
pub mod cover;
pub mod generate;
pub mod rng;
pub mod variant;
pub mod watch;
