//! Writes what is told, and waits where somebody reads along.

use std::error::Error;
use std::fmt::Display;
use std::io::{self, IsTerminal, StdoutLock, Write};

use crate::desk::Desk;
use crate::view;

pub type Done = Result<(), Box<dyn Error>>;

pub struct Teller {
    styled: bool,
    paced: bool,
    out: StdoutLock<'static>,
}

impl Teller {
    pub fn new() -> Teller {
        let styled = io::stdout().is_terminal();
        Teller {
            styled,
            paced: styled && io::stdin().is_terminal(),
            out: io::stdout().lock(),
        }
    }

    pub fn say(&mut self, line: &str) -> Done {
        Ok(writeln!(self.out, "{line}")?)
    }

    pub fn screen(&mut self, desk: &Desk) -> Done {
        Ok(view::screen(desk, self.styled, &mut self.out)?)
    }

    pub fn bytes(&mut self, bytes: &[u8]) -> Done {
        Ok(view::bytes(bytes, &mut self.out)?)
    }

    /// After a step.
    pub fn pause(&mut self) -> Done {
        if self.paced {
            write!(self.out, "  Enter goes on ")?;
            self.out.flush()?;
            io::stdin().read_line(&mut String::new())?;
        }
        self.say("")
    }
}

/// An error where a step does not come out as it should.
pub fn expect<T: PartialEq + Display>(what: &str, answer: T, expected: T) -> Done {
    if answer != expected {
        return Err(format!("{what}: {answer}, expected {expected}").into());
    }
    Ok(())
}
