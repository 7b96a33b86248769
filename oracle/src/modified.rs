//! 27: the unprotected fields that were touched, each with its own preface.

use std::ops::Range;

use crate::command::code;
use crate::desk::Desk;
use crate::variant::Variant;

impl Desk<'_> {
    pub fn transmit_modified(&mut self) {
        let fields = self.modified_fields();
        if fields.is_empty() && self.varies(Variant::ModifiedEmptyPreface) {
            self.preface(self.screen.first_start());
        }
        for (place, field) in fields.iter().enumerate() {
            self.send_modified(place, field.clone());
        }
        self.modified_cursor(&fields);
        self.modified_marks(&fields);
    }

    /// Suppression has no say in it, as in 21.
    fn modified_fields(&self) -> Vec<Range<usize>> {
        let all = match self.variant {
            Variant::ModifiedProtected => true,
            Variant::ModifiedSuppressed => self.screen.suppressed,
            _ => false,
        };
        let fields = self.screen.fields();
        let taken = |field: &Range<usize>| {
            (all || !self.screen.protected(field.start))
                && (self.screen.modified(field) || self.varies(Variant::ModifiedAll))
        };
        fields.filter(taken).collect()
    }

    fn send_modified(&mut self, place: usize, field: Range<usize>) {
        if place > 0 && self.varies(Variant::ModifiedSeparated) {
            self.reply.subcommand(code::FIELD_SEPARATOR, &[]);
        }
        let marked = |&cell: &usize| self.screen.marks[cell] != 0;
        match self.variant {
            Variant::ModifiedOnePreface if place > 0 => {
                self.reply.subcommand(code::FIELD_SEPARATOR, &[]);
                self.reply.data(&self.screen.chars[field]);
            }
            Variant::ModifiedFromMark => {
                let first = field.clone().find(marked);
                self.send(first.unwrap_or(field.start)..field.end);
            }
            Variant::ModifiedToMark => {
                let last = field.clone().rev().find(marked);
                self.send(field.start..last.map_or(field.end, |last| last + 1));
            }
            _ => self.send(field),
        }
    }

    /// As after 21, whatever was sent.
    fn modified_cursor(&mut self, fields: &[Range<usize>]) {
        match (self.variant, fields) {
            (Variant::Cursor27Stays, _) | (Variant::Cursor27EmptyStays, []) => {}
            (Variant::Cursor27Sent, [first, ..]) => self.screen.go(first.start),
            (Variant::Cursor27Origin, _) => self.screen.go(0),
            _ => self.screen.go(self.screen.first_start()),
        }
    }

    /// All of them, those that nothing was sent for too.
    fn modified_marks(&mut self, fields: &[Range<usize>]) {
        match self.variant {
            Variant::ModifiedKeepsMarks => {}
            Variant::ModifiedEmptyKeepsMarks if fields.is_empty() => {}
            Variant::ModifiedClearsSent => {
                for field in fields {
                    self.screen.set_marks(field.clone(), 0);
                }
            }
            _ => self.screen.clear_marks(),
        }
    }
}
