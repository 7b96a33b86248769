//! Refusal numbers and the order in which they are looked for.

use crate::variant::Variant;

#[derive(Clone, Copy, Debug, PartialEq, Eq)]
pub enum Refusal {
    Size = 1,
    Buffers = 2,
    Character = 3,
    Session = 4,
    Room = 5,
    Guarded = 6,
    Class = 7,
    DetOff = 8,
    NoMeaning = 9,
    LineFull = 10,
    Mark = 11,
    Edition = 12,
}

impl Refusal {
    pub fn number(self) -> u8 {
        self as u8
    }
}

const COUNT: usize = 12;

const ORDER: [Refusal; COUNT] = [
    Refusal::Size,
    Refusal::Edition,
    Refusal::Buffers,
    Refusal::Character,
    Refusal::Session,
    Refusal::Mark,
    Refusal::Room,
    Refusal::NoMeaning,
    Refusal::DetOff,
    Refusal::Guarded,
    Refusal::Class,
    Refusal::LineFull,
];

/// The first refusal that is given; each is asked for only when none
/// before it was, so later ones may rely on what earlier ones shut out.
pub fn first(variant: Variant, given: impl Fn(Refusal) -> bool) -> Option<Refusal> {
    order(variant).into_iter().find(|&refusal| given(refusal))
}

fn order(variant: Variant) -> [Refusal; COUNT] {
    let mut order = ORDER;
    match variant {
        Variant::Refuse2Before1 => before(&mut order, Refusal::Buffers, Refusal::Size),
        Variant::Refuse3Before2 => before(&mut order, Refusal::Character, Refusal::Buffers),
        Variant::Refuse4Before3 => before(&mut order, Refusal::Session, Refusal::Character),
        Variant::Refuse5Before4 => before(&mut order, Refusal::Room, Refusal::Session),
        Variant::Refuse11Before4 => before(&mut order, Refusal::Mark, Refusal::Session),
        Variant::Refuse11Before2 => before(&mut order, Refusal::Mark, Refusal::Buffers),
        Variant::Refuse11After5 => before(&mut order, Refusal::Room, Refusal::Mark),
        Variant::Refuse11Last => last(&mut order, Refusal::Mark),
        Variant::Refuse9Before5 => before(&mut order, Refusal::NoMeaning, Refusal::Room),
        Variant::Refuse5Last => last(&mut order, Refusal::Room),
        Variant::Refuse10Before5 => before(&mut order, Refusal::LineFull, Refusal::Room),
        Variant::Refuse12Before1 => before(&mut order, Refusal::Edition, Refusal::Size),
        Variant::Refuse12After2 => before(&mut order, Refusal::Buffers, Refusal::Edition),
        _ => {}
    }
    order
}

fn place(order: &[Refusal], refusal: Refusal) -> usize {
    let found = order.iter().position(|&one| one == refusal);
    found.unwrap_or(0)
}

/// Puts the later one just before the other.
fn before(order: &mut [Refusal], later: Refusal, other: Refusal) {
    let range = place(order, other)..=place(order, later);
    order[range].rotate_right(1);
}

fn last(order: &mut [Refusal], refusal: Refusal) {
    let from = place(order, refusal);
    order[from..].rotate_left(1);
}
