//! The screens on which keys are pressed and commands obeyed, each with the
//! cursor on its first, middle and last cell.

use crate::ours::Ours;
use crate::screens::{alternating, made, open_if, Screen};
use crate::screens::{OPEN, OPEN_TOO, PROTECTED, PROTECTED_TOO};
use crate::size::Size;
use crate::streams;

pub const FORM: Screen = crate::screens::FORM;

pub const BLANK: Screen = Screen {
    name: "blank",
    make: Ours::open,
};

pub const ALL_PROTECTED: Screen = Screen {
    name: "all protected",
    make: all_protected,
};

pub const EACH_A_FIELD: Screen = Screen {
    name: "each cell a field",
    make: |size| alternating(size, [OPEN, OPEN_TOO]),
};

pub const SCREENS: [Screen; 10] = [
    FORM,
    BLANK,
    ALL_PROTECTED,
    EACH_A_FIELD,
    Screen {
        name: "one full field",
        make: |size| made(size, |_, _| OPEN),
    },
    Screen {
        name: "each cell a protected field",
        make: |size| alternating(size, [PROTECTED, PROTECTED_TOO]),
    },
    Screen {
        name: "first cell open",
        make: |size| made(size, |cell, _| open_if(cell == 0)),
    },
    Screen {
        name: "last cell open",
        make: |size| made(size, |cell, last| open_if(cell == last)),
    },
    Screen {
        name: "first and last cell open",
        make: |size| made(size, |cell, last| open_if(cell == 0 || cell == last)),
    },
    Screen {
        name: "all protected, suppressed",
        make: suppressed,
    },
];

fn all_protected(size: Size) -> Ours {
    made(size, |_, _| PROTECTED)
}

fn suppressed(size: Size) -> Ours {
    let mut ours = all_protected(size);
    ours.take(&streams::suppress());
    ours
}

/// Where the cursor is put. What is slowest of the three is the count.
pub fn cursors(size: Size) -> [usize; 3] {
    [0, size.cells() / 2, size.cells() - 1]
}

pub fn at(screen: &Screen, size: Size, cell: usize) -> Ours {
    let mut ours = (screen.make)(size);
    ours.go(cell);
    ours
}
