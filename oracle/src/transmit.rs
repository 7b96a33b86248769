//! 20 to 26: a preface, then characters. 27 has its own file.

use std::ops::Range;

use crate::command::code;
use crate::desk::Desk;
use crate::variant::Variant;

impl Desk<'_> {
    pub fn transmit(&mut self, code: u8) {
        match code {
            code::TRANSMIT_SCREEN => self.transmit_screen(),
            code::TRANSMIT_UNPROTECTED => self.transmit_unprotected(),
            code::TRANSMIT_LINE => self.transmit_line(),
            code::TRANSMIT_FIELD => self.transmit_field(),
            code::TRANSMIT_REST_OF_SCREEN => self.send(self.screen.at()..self.screen.cells()),
            code::TRANSMIT_REST_OF_LINE => self.send(self.screen.at()..self.screen.line().end),
            code::TRANSMIT_REST_OF_FIELD => self.transmit_rest_of_field(),
            _ => self.transmit_modified(),
        }
    }

    /// 28 with the cell's position.
    pub fn preface(&mut self, cell: usize) {
        let position = self.screen.size.position(cell);
        self.reply
            .subcommand(code::DATA_TRANSMIT, &[position.x.0, position.y.0]);
    }

    /// The cells' characters, prefaced by the first.
    pub fn send(&mut self, cells: Range<usize>) {
        self.preface(cells.start);
        self.reply.data(&self.screen.chars[cells]);
    }

    fn transmit_screen(&mut self) {
        let first = match self.variant {
            Variant::Preface20Cursor => self.screen.at(),
            _ => 0,
        };
        self.preface(first);
        self.reply.data(self.screen.chars);
        if !self.varies(Variant::Cursor20Stays) {
            self.screen.go(0);
        }
    }

    /// Also key 13.
    pub fn transmit_unprotected(&mut self) {
        let empty = self.screen.unprotected_fields().next().is_none();
        let first = self.screen.first_start();
        self.preface(match self.variant {
            Variant::Preface21Origin => 0,
            Variant::Preface21EmptyCursor if empty => self.screen.at(),
            _ => first,
        });
        self.send_fields();
        if self.varies(Variant::Transmit21ClearsMarks) {
            self.screen.clear_marks();
        }
        match self.variant {
            Variant::Cursor21Stays => {}
            Variant::Cursor21EmptyStays if empty => {}
            _ => self.screen.go(first),
        }
    }

    /// The unprotected fields, a separator between each two.
    fn send_fields(&mut self) {
        let all = self.screen.suppressed && self.varies(Variant::SuppressionChanges21);
        let mut separate = false;
        for field in self.screen.fields() {
            let unprotected = !self.screen.protected(field.start);
            if !(unprotected || all || self.variant == Variant::ProtectedRunIsField) {
                continue;
            }
            if separate {
                self.reply.subcommand(code::FIELD_SEPARATOR, &[]);
            }
            if unprotected || all {
                self.reply.data(&self.screen.chars[field]);
            }
            separate = true;
        }
    }

    fn transmit_line(&mut self) {
        let line = self.screen.line();
        self.preface(match self.variant {
            Variant::Preface22Cursor => self.screen.at(),
            _ => line.start,
        });
        self.reply.data(&self.screen.chars[line.clone()]);
        let last = line.end == self.screen.cells();
        match self.variant {
            Variant::Cursor22Stays => {}
            Variant::Cursor22LastKeepsX if last => {}
            Variant::Cursor22LastWraps if last => self.screen.go(0),
            _ => self.screen.go(if last { line.start } else { line.end }),
        }
    }

    fn transmit_field(&mut self) {
        let field = self.screen.field(self.screen.at());
        if self.closed() {
            return self.preface_alone(field.start);
        }
        if self.varies(Variant::Preface23Cursor) {
            self.preface(self.screen.at());
            self.reply.data(&self.screen.chars[field.clone()]);
        } else {
            self.send(field.clone());
        }
        if self.varies(Variant::Cursor23Moves) {
            self.screen.go(field.end % self.screen.cells());
        }
    }

    fn transmit_rest_of_field(&mut self) {
        let field = self.screen.field(self.screen.at());
        if self.closed() {
            return self.preface_alone(self.screen.at());
        }
        if self.varies(Variant::Preface26Start) {
            self.preface(field.start);
            self.reply
                .data(&self.screen.chars[self.screen.at()..field.end]);
        } else {
            self.send(self.screen.at()..field.end);
        }
    }

    /// Whether the cursor's field is kept from the host.
    fn closed(&self) -> bool {
        let at = self.screen.at();
        match self.variant {
            Variant::GuardedSent => false,
            Variant::Field23Suppressed => self.screen.protected(at),
            _ => self.screen.guarded(at),
        }
    }

    /// On a guarded cell the preface names the cursor and ends the reply.
    fn preface_alone(&mut self, start: usize) {
        match self.variant {
            Variant::GuardedNoPreface => {}
            Variant::PrefaceGuardedStart => self.preface(start),
            _ => self.preface(self.screen.at()),
        }
    }
}
