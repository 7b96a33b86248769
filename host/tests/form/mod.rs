//! Form F.

use host::terminal::at;

use crate::lent::Lent;

/// Its characters and its attributes.
pub const F: &[u8; 16] = b"WT 70 #4UNIT mg ";
pub const P: u8 = 8;
const ATTRS: [u8; 16] = [P, P, P, 0, 0, 0, P, P, P, P, P, P, P, 0, 0, 0];

/// Form F in September's edition, option 20 on, every facility agreed, the
/// least reply room.
pub fn form(x: u8, y: u8) -> Lent {
    let mut lent = Lent::open(8, 2);
    (lent.session[at::X], lent.session[at::Y]) = (x, y);
    lent.session[at::ON] = 1;
    lent.session[at::MAPS..at::EDITION].fill(255);
    lent.chars.copy_from_slice(F);
    lent.attrs.copy_from_slice(&ATTRS);
    lent
}

/// The marks of these cells.
pub fn marked(cells: &[usize]) -> Vec<u8> {
    (0..16).map(|cell| cells.contains(&cell).into()).collect()
}
