//! The three operations: open, host bytes, one key.

use crate::desk::Desk;
use crate::edition::Edition;
use crate::key::Key;
use crate::refusal::{self, Refusal};
use crate::session::Session;
use crate::size::Size;
use crate::variant::Variant;
use crate::watch::Watch;

/// A session, and beside it the rule that is changed, if any.
#[derive(Clone, Debug, Default)]
pub struct Terminal {
    pub session: Session,
    pub variant: Variant,
}

/// The screen's memory, which the caller lends: C bytes each.
pub struct Buffers<'a> {
    pub chars: &'a mut [u8],
    pub attrs: &'a mut [u8],
    pub marks: &'a mut [u8],
}

impl Buffers<'_> {
    fn fit(&self, cells: usize, marks_any: bool) -> bool {
        let marks = self.marks.len() == cells || marks_any;
        self.chars.len() == cells && self.attrs.len() == cells && marks
    }
}

/// What is lent for host bytes or a key.
pub struct Lent<'a> {
    pub buffers: Buffers<'a>,
    pub reply: &'a mut [u8],
}

#[derive(Clone, Copy, Debug, Default, PartialEq, Eq)]
pub struct Outcome {
    pub refusal: Option<Refusal>,
    pub taken: usize,
    pub written: usize,
}

impl Outcome {
    fn refused(refusal: Refusal) -> Outcome {
        Outcome {
            refusal: Some(refusal),
            ..Outcome::default()
        }
    }
}

impl Terminal {
    pub fn new(variant: Variant) -> Terminal {
        Terminal {
            session: Session::default(),
            variant,
        }
    }

    /// Refused, it leaves a fresh session of size 0 by 0.
    pub fn open(&mut self, m: u16, n: u16, edition: u16, buffers: Buffers) -> Outcome {
        let (size, edition) = (Size::new(m, n), self.edition(edition));
        self.session = Session {
            agreed: match self.variant {
                Variant::OpenKeepsMaps => self.session.agreed,
                _ => Default::default(),
            },
            edition: match self.variant {
                Variant::RefusedOpenSaysNamed => edition.unwrap_or_default(),
                Variant::RefusedOpenSays731 => Edition::June,
                Variant::OpenKeepsEdition => self.session.edition,
                _ => Edition::default(),
            },
            ..Session::default()
        };
        let cells = usize::from(m) * usize::from(n);
        let refusal = refusal::first(self.variant, |refusal| match refusal {
            Refusal::Size => size.is_none(),
            Refusal::Edition => edition.is_none(),
            Refusal::Buffers => !buffers.fit(cells, self.variant == Variant::OpenAnyMarks),
            _ => false,
        });
        if let Some(refusal) = refusal {
            return Outcome::refused(refusal);
        }
        buffers.chars.fill(b' ');
        buffers.attrs.fill(0);
        if self.variant != Variant::OpenKeepsMarks {
            buffers.marks.fill(0);
        }
        self.session.size = size.unwrap_or_default();
        if self.variant != Variant::OpenKeepsEdition {
            self.session.edition = edition.unwrap_or_default();
        }
        Outcome::default()
    }

    /// The variant, which may be one in one edition alone.
    fn slip(&self) -> Variant {
        self.variant.in_edition(self.session.edition)
    }

    /// The edition of that number, if there is one.
    fn edition(&self, number: u16) -> Option<Edition> {
        let taken = match self.variant {
            Variant::AnyEdition => Some(Edition::September),
            Variant::EarlierIsJune if number < 731 => Some(Edition::June),
            Variant::LaterIsSeptember if number > 732 => Some(Edition::September),
            _ => None,
        };
        Edition::named(number).or(taken)
    }

    /// Takes bytes from the front while the longest reply would still fit.
    pub fn host(&mut self, lent: Lent, input: &[u8], watch: &mut dyn Watch) -> Outcome {
        let refusal = refusal::first(self.slip(), |refusal| self.unfit(&lent, refusal));
        if let Some(refusal) = refusal {
            return Outcome::refused(refusal);
        }
        let room = self.room_to_take();
        let mut desk = Desk::new(&self.session, lent, self.slip(), watch);
        let mut taken = 0;
        while taken < input.len() && desk.reply.free() >= room {
            desk.take(input[taken]);
            taken += 1;
        }
        self.finish(desk.close(), taken)
    }

    pub fn key(&mut self, lent: Lent, key: u8, watch: &mut dyn Watch) -> Outcome {
        let meaning = self.meaning(key);
        let refusal = refusal::first(self.slip(), |refusal| match meaning {
            None if refusal == Refusal::NoMeaning => true,
            Some(key) if self.refuses(&lent, key, refusal) => true,
            _ => self.unfit(&lent, refusal),
        });
        let (None, Some(meaning)) = (refusal, meaning) else {
            return Outcome::refused(refusal.unwrap_or(Refusal::NoMeaning));
        };
        let mut desk = Desk::new(&self.session, lent, self.slip(), watch);
        desk.press(key, meaning);
        self.finish(desk.close(), 1)
    }

    /// A key that the edit line takes has no other meaning.
    fn meaning(&self, key: u8) -> Option<Key> {
        let other = Key::meaning(key, self.slip());
        if !self.session.line_takes(key, self.slip()) {
            return other;
        }
        match self.slip() {
            Variant::LineKeys9 => other.and(Some(Key::Line(key))),
            _ => Some(Key::Line(key)),
        }
    }

    fn finish(&mut self, (session, written): (Session, usize), taken: usize) -> Outcome {
        self.session = session;
        Outcome {
            refusal: None,
            taken,
            written,
        }
    }

    /// The refusals that host bytes and keys share.
    fn unfit(&self, lent: &Lent, refusal: Refusal) -> bool {
        let (size, buffers) = (self.session.size, &lent.buffers);
        let cells = size.cells();
        match refusal {
            Refusal::Size => !size.in_range(),
            Refusal::Buffers => !buffers.fit(cells, self.slip() == Variant::AnyMarks),
            Refusal::Character => !buffers.chars.iter().all(|c| (32..=126).contains(c)),
            Refusal::Session => !self.session.sound(self.slip()),
            Refusal::Mark => {
                buffers.marks.iter().any(|&mark| mark > 1) && self.slip() != Variant::MarksAbove1
            }
            Refusal::Room => lent.reply.len() < self.room_to_call(),
            _ => false,
        }
    }

    /// The refusals of a key that has a meaning.
    fn refuses(&self, lent: &Lent, key: Key, refusal: Refusal) -> bool {
        let session = &self.session;
        let key = match (key, self.slip()) {
            (Key::Line(byte), Variant::LineKeys678) if refusal != Refusal::LineFull => {
                Key::meaning(byte, self.slip()).unwrap_or(key)
            }
            _ => key,
        };
        match refusal {
            Refusal::DetOff => !session.det && key.needs_det(self.slip()),
            Refusal::Guarded => key.changes_cell() && self.on_guarded(lent),
            Refusal::Class => {
                let attr = lent.buffers.attrs[session.size.cell(session.cursor)];
                !key.fits(attr, session.suppressed, self.slip())
            }
            Refusal::LineFull => match key {
                Key::Line(byte) => session.pad.refuses(byte, self.slip()),
                _ => false,
            },
            _ => false,
        }
    }

    fn on_guarded(&self, lent: &Lent) -> bool {
        let cell = self.session.size.cell(self.session.cursor);
        crate::screen::guarded(
            lent.buffers.attrs[cell],
            self.session.suppressed,
            self.slip(),
        )
    }

    fn room_to_call(&self) -> usize {
        let room = self.session.size.room();
        match self.slip() {
            Variant::RefuseRoomLess => room - 1,
            Variant::RefuseRoomMore => room + 1,
            Variant::RefuseRoomOld => 7 * self.session.size.cells() + 2,
            _ => room,
        }
    }

    fn room_to_take(&self) -> usize {
        let room = self.session.size.room();
        match self.slip() {
            Variant::TakeRoomLess => room - 1,
            Variant::TakeRoomMore => room + 1,
            Variant::TakeRoomOld => 7 * self.session.size.cells() + 2,
            _ => room,
        }
    }
}
