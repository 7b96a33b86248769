//! What is taken in calls of several lengths.

use crate::streams;

/// One Ethernet frame's worth of bytes among them.
pub const CALLS: [usize; 5] = [1, 64, 512, 1460, 65536];

const WHOLE: usize = 65536;

/// Calls of one byte are many.
const OF_SINGLE_BYTES: usize = 4096;

/// What a screen and a peer see before the count starts: more lines than the
/// screen has, or whole forms.
const WARM_UP: usize = 4096;

pub struct Input {
    pub name: &'static str,
    bytes: fn(usize) -> Vec<u8>,
    /// Whether every cell is protected when it comes.
    pub guarded: bool,
    /// Whether option 20 is off and option 30 on.
    pub to_line: bool,
    /// Whether it is text alone, for a peer that knows nothing else.
    pub text: bool,
}

pub const TEXT: Input = Input {
    name: "text",
    bytes: |length| streams::text(length, b"\r\n"),
    guarded: false,
    to_line: false,
    text: true,
};

pub const SHORT_LINES: Input = Input {
    name: "short lines",
    bytes: streams::short_lines,
    guarded: false,
    to_line: false,
    text: true,
};

pub const ONE_A_LINE: Input = Input {
    name: "one character a line",
    bytes: streams::one_a_line,
    guarded: false,
    to_line: false,
    text: true,
};

pub const GUARDED: Input = Input {
    name: "text on guarded cells",
    guarded: true,
    text: false,
    ..TEXT
};

pub const SHORT_GUARDED: Input = Input {
    name: "short lines on guarded cells",
    guarded: true,
    text: false,
    ..SHORT_LINES
};

pub const TEXT_TO_LINE: Input = Input {
    name: "text with option 30 on",
    to_line: true,
    text: false,
    ..TEXT
};

pub const SHORT_TO_LINE: Input = Input {
    name: "short lines with option 30 on",
    to_line: true,
    text: false,
    ..SHORT_LINES
};

pub const FORMS: Input = Input {
    name: "forms",
    bytes: streams::forms,
    guarded: false,
    to_line: false,
    text: false,
};

pub const INPUTS: [Input; 9] = [
    TEXT,
    Input {
        name: "text without line feeds",
        bytes: |length| streams::text(length, b"\r"),
        ..TEXT
    },
    SHORT_LINES,
    ONE_A_LINE,
    GUARDED,
    SHORT_GUARDED,
    TEXT_TO_LINE,
    SHORT_TO_LINE,
    FORMS,
];

impl Input {
    /// Whether its bytes are those of another, and only the session or the
    /// screen is not.
    pub fn repeats(&self) -> bool {
        self.guarded || self.to_line
    }

    pub fn warm_up(&self) -> Vec<u8> {
        (self.bytes)(WARM_UP)
    }

    /// Exactly so many, that no call is shorter than the others but the last.
    pub fn whole(&self) -> Vec<u8> {
        let mut bytes = (self.bytes)(WHOLE);
        bytes.truncate(WHOLE);
        bytes
    }

    /// What is taken in calls of this length.
    pub fn for_calls_of(&self, length: usize) -> Vec<u8> {
        let mut bytes = self.whole();
        if length == 1 {
            bytes.truncate(OF_SINGLE_BYTES);
        }
        bytes
    }
}
