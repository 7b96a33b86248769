//! Every command of a few bytes, with the parameters that make it work most.

use crate::size::Size;
use crate::streams::{negotiation, subcommand, DO, DONT, WILL};

/// The most that REPEAT can be asked for without a doubled IAC.
const MOST: u8 = 254;

const FACILITIES: &str = "TRANSMIT FACILITIES (3)";

pub struct Command {
    pub name: &'static str,
    /// On a screen of this size, with the cursor on this cell.
    pub bytes: fn(Size, usize) -> Vec<u8>,
}

impl Command {
    /// Whether cells are what it answers with.
    pub fn transmits(&self) -> bool {
        self.name.starts_with("TRANSMIT ") && self.name != FACILITIES
    }
}

macro_rules! alone {
    ($($code:literal $name:literal)*) => {
        [$(Command { name: $name, bytes: |_, _| subcommand(&[$code]) }),*]
    };
}

const ALONE: [Command; 25] = alone! {
    8 "UP (8)"
    9 "DOWN (9)"
    10 "LEFT (10)"
    11 "RIGHT (11)"
    12 "HOME (12)"
    15 "CHAR INSERT (15)"
    16 "CHAR DELETE (16)"
    17 "READ CURSOR (17)"
    19 "REVERSE TAB (19)"
    20 "TRANSMIT SCREEN (20)"
    21 "TRANSMIT UNPROTECTED (21)"
    22 "TRANSMIT LINE (22)"
    23 "TRANSMIT FIELD (23)"
    24 "TRANSMIT REST OF SCREEN (24)"
    25 "TRANSMIT REST OF LINE (25)"
    26 "TRANSMIT REST OF FIELD (26)"
    27 "TRANSMIT MODIFIED (27)"
    29 "ERASE SCREEN (29)"
    30 "ERASE LINE (30)"
    31 "ERASE FIELD (31)"
    32 "ERASE REST OF SCREEN (32)"
    33 "ERASE REST OF LINE (33)"
    34 "ERASE REST OF FIELD (34)"
    35 "ERASE UNPROTECTED (35)"
    254 "an unknown code"
};

const WITH_PARAMETERS: [Command; 21] = [
    Command {
        name: "EDIT FACILITIES (1)",
        bytes: |_, _| subcommand(&[1, 0]),
    },
    Command {
        name: "ERASE FACILITIES (2)",
        bytes: |_, _| subcommand(&[2, 0]),
    },
    Command {
        name: FACILITIES,
        bytes: |_, _| subcommand(&[3, 0]),
    },
    Command {
        name: "FORMAT FACILITIES (4)",
        bytes: |_, _| subcommand(&[4, 0, 0]),
    },
    Command {
        name: "MOVE CURSOR (5)",
        bytes: |size, _| subcommand(&[5, size.columns as u8 - 1, size.lines as u8 - 1]),
    },
    Command {
        name: "MOVE CURSOR (5) off the screen",
        bytes: |_, _| subcommand(&[5, 200, 200]),
    },
    Command {
        name: "FORMAT DATA (36)",
        bytes: |size, cell| format_rest(0, size, cell),
    },
    Command {
        name: "FORMAT DATA (36), protecting",
        bytes: |size, cell| format_rest(8, size, cell),
    },
    Command {
        name: "REPEAT (37)",
        bytes: |_, _| subcommand(&[37, MOST, b'x']),
    },
    Command {
        name: "SUPPRESS PROTECTION (38), DO",
        bytes: |_, _| subcommand(&[38, DO]),
    },
    Command {
        name: "SUPPRESS PROTECTION (38), DONT",
        bytes: |_, _| subcommand(&[38, DONT]),
    },
    Command {
        name: "SUPPRESS PROTECTION (38), WILL",
        bytes: |_, _| subcommand(&[38, WILL]),
    },
    Command {
        name: "ERROR (41)",
        bytes: |_, _| subcommand(&[41, 0, 0]),
    },
    Command {
        name: "too many parameters",
        bytes: |_, _| subcommand(&[29, 0, 0, 0, 0]),
    },
    Command {
        name: "IAC DO 20",
        bytes: |_, _| negotiation(DO, 20),
    },
    Command {
        name: "IAC DONT 20",
        bytes: |_, _| negotiation(DONT, 20),
    },
    Command {
        name: "IAC WILL 1",
        bytes: |_, _| negotiation(WILL, 1),
    },
    Command {
        name: "a character",
        bytes: |_, _| b"x".to_vec(),
    },
    Command {
        name: "a carriage return",
        bytes: |_, _| b"\r".to_vec(),
    },
    Command {
        name: "a line feed",
        bytes: |_, _| b"\n".to_vec(),
    },
    Command {
        name: "a backspace",
        bytes: |_, _| vec![8],
    },
];

pub fn commands() -> impl Iterator<Item = Command> {
    ALONE.into_iter().chain(WITH_PARAMETERS)
}

/// All cells from the cursor on.
fn format_rest(attribute: u8, size: Size, cell: usize) -> Vec<u8> {
    let [high, low] = ((size.cells() - cell) as u16).to_be_bytes();
    subcommand(&[36, attribute, 0, high, low])
}
