//! All that takes bytes: ours, its peers and the floor.

use super::inputs::Input;
use crate::c::floor;
use crate::c::libtelnet::{self, Libtelnet};
use crate::ours::Ours;
use crate::rust_core::RustCore;
use crate::screens::PROTECTED;
use crate::size::SMALL;
use crate::takes::{Takes, LIBTSM, LIBVTERM};

pub const OURS: &str = "ours";
pub const CORE_FAST: &str = "Rust core, for speed";
pub const LIBTELNET: &str = "libtelnet";
pub const MEMCHR: &str = "memchr";

pub struct Side {
    pub name: &'static str,
    /// Whether it is measured with this input at all.
    pub suits: fn(&Input) -> bool,
    /// None where it is not installed.
    pub open: fn(&Input) -> Option<Box<dyn Takes>>,
    /// To be installed, where it is missing.
    pub package: &'static str,
}

pub const ALL: [Side; 7] = [
    Side {
        name: OURS,
        suits: |_| true,
        open: ours,
        package: "",
    },
    Side {
        name: "Rust core, plain",
        ..CORE_FOR_SPEED
    },
    Side {
        name: LIBVTERM.name,
        suits: |input| input.text,
        open: |_| Some((LIBVTERM.open)(SMALL)?),
        package: LIBVTERM.package,
    },
    Side {
        name: LIBTSM.name,
        suits: |input| input.text,
        open: |_| Some((LIBTSM.open)(SMALL)?),
        package: LIBTSM.package,
    },
    Side {
        name: LIBTELNET,
        suits: |input| !input.repeats(),
        open: |_| Some(Box::new(Libtelnet::new()?)),
        package: libtelnet::PACKAGE,
    },
    Side {
        name: MEMCHR,
        suits: |input| !input.repeats(),
        open: |_| Some(Box::new(Memchr)),
        package: "",
    },
    Side {
        name: "memcpy",
        suits: |input| !input.repeats(),
        open: |_| Some(Box::new(Memcpy(vec![0; 65536]))),
        package: "",
    },
];

pub const CORE_FOR_SPEED: Side = Side {
    name: CORE_FAST,
    suits: |_| true,
    open: core,
    package: "",
};

fn ours(input: &Input) -> Option<Box<dyn Takes>> {
    let mut ours = Ours::open(SMALL);
    if input.guarded {
        ours.attrs.fill(PROTECTED);
    }
    if input.to_line {
        ours.to_line();
    }
    Some(Box::new(ours))
}

fn core(input: &Input) -> Option<Box<dyn Takes>> {
    let mut core = RustCore::open(SMALL);
    if input.guarded {
        core.attrs.fill(PROTECTED);
    }
    if input.to_line {
        core.to_line();
    }
    Some(Box::new(core))
}

struct Memchr;

impl Takes for Memchr {
    fn take(&mut self, input: &[u8]) {
        floor::memchr(input);
    }
}

struct Memcpy(Vec<u8>);

impl Takes for Memcpy {
    fn take(&mut self, input: &[u8]) {
        floor::memcpy(&mut self.0, input);
    }
}
