//! The screens on which keys are pressed.

use host::terminal::LINE_MOST;

use crate::ours::Ours;
use crate::size::Size;
use crate::streams;

pub const OPEN: u8 = 0x00;
pub const OPEN_TOO: u8 = 0x02;
pub const PROTECTED: u8 = 0x08;
pub const PROTECTED_TOO: u8 = 0x0a;

/// Parameters of option 30, and a value.
const ECHO: u8 = 2;
const FORWARDING: u8 = 3;
const ON_CR: u8 = 2;

pub struct Screen {
    pub name: &'static str,
    pub make: fn(Size) -> Ours,
}

pub const FORM: Screen = Screen {
    name: "a form",
    make: form,
};

/// On these the scans and the replies are long.
pub const HARD: [Screen; 5] = [
    Screen {
        name: "one open field, cursor at its start",
        make: one_field,
    },
    Screen {
        name: "first and last cell open, cursor on the first",
        make: ends_open,
    },
    Screen {
        name: "first cell open, cursor on the last",
        make: first_open,
    },
    Screen {
        name: "last cell open, cursor on the first",
        make: last_open,
    },
    Screen {
        name: "each cell an open field",
        make: each_a_field,
    },
];

/// Where the edit line takes the keys, echoes them and goes out at CR.
pub const EMPTY_LINE: Screen = Screen {
    name: "an empty edit line",
    make: |size| line(size, 0),
};

/// Full of CRs, which go out as two bytes each.
pub const FULL_LINE: Screen = Screen {
    name: "a full edit line",
    make: |size| line(size, LINE_MOST),
};

fn form(size: Size) -> Ours {
    let mut ours = Ours::open(size);
    ours.take(&streams::one_form());
    ours
}

fn line(size: Size, length: usize) -> Ours {
    let mut ours = Ours::open(size);
    ours.to_line();
    for _ in 0..length {
        ours.key(13)
            .expect("a CR waits until it is told to forward");
    }
    ours.take(&streams::set(&[ECHO, 1, FORWARDING, ON_CR]));
    ours
}

fn one_field(size: Size) -> Ours {
    made(size, |_, _| OPEN)
}

fn ends_open(size: Size) -> Ours {
    made(size, |cell, last| open_if(cell == 0 || cell == last))
}

fn first_open(size: Size) -> Ours {
    let mut ours = made(size, |cell, _| open_if(cell == 0));
    ours.go(size.cells() - 1);
    ours
}

fn last_open(size: Size) -> Ours {
    made(size, |cell, last| open_if(cell == last))
}

fn each_a_field(size: Size) -> Ours {
    alternating(size, [OPEN, OPEN_TOO])
}

/// Each cell a field.
pub fn alternating(size: Size, attributes: [u8; 2]) -> Ours {
    made(size, |cell, _| attributes[cell % 2])
}

pub fn open_if(open: bool) -> u8 {
    if open {
        OPEN
    } else {
        PROTECTED
    }
}

/// A full screen with these attribute bytes, by cell and last cell, every cell
/// marked, and the cursor on its first cell.
pub fn made(size: Size, attribute: impl Fn(usize, usize) -> u8) -> Ours {
    let mut ours = Ours::open(size);
    ours.chars.fill(b'x');
    ours.marks.fill(1);
    for (cell, attr) in ours.attrs.iter_mut().enumerate() {
        *attr = attribute(cell, size.cells() - 1);
    }
    ours
}
