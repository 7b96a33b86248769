//! Sizes, cells and positions.

/// Character position in a line.
#[derive(Clone, Copy, Debug, Default, PartialEq, Eq)]
pub struct X(pub u8);

/// Line position on the screen.
#[derive(Clone, Copy, Debug, Default, PartialEq, Eq)]
pub struct Y(pub u8);

#[derive(Clone, Copy, Debug, Default, PartialEq, Eq)]
pub struct Position {
    pub x: X,
    pub y: Y,
}

/// M characters by N lines; 0 by 0 is what a refused open leaves.
#[derive(Clone, Copy, Debug, Default, PartialEq, Eq)]
pub struct Size {
    pub m: u8,
    pub n: u8,
}

impl Size {
    pub const MOST_M: u8 = 132;
    pub const MOST_N: u8 = 64;

    /// None where M or N is outside its range.
    pub fn new(m: u16, n: u16) -> Option<Size> {
        let size = Size {
            m: m.try_into().ok()?,
            n: n.try_into().ok()?,
        };
        size.in_range().then_some(size)
    }

    pub fn in_range(self) -> bool {
        (1..=Size::MOST_M).contains(&self.m) && (1..=Size::MOST_N).contains(&self.n)
    }

    /// C, the number of cells.
    pub fn cells(self) -> usize {
        usize::from(self.m) * usize::from(self.n)
    }

    /// The longest single reply: 27 over cells that are each a marked field.
    pub fn room(self) -> usize {
        9 * self.cells()
    }

    pub fn holds(self, position: Position) -> bool {
        position.x.0 < self.m && position.y.0 < self.n
    }

    /// The cell's place in reading order.
    pub fn cell(self, position: Position) -> usize {
        usize::from(position.y.0) * usize::from(self.m) + usize::from(position.x.0)
    }

    /// The inverse of `cell`.
    pub fn position(self, cell: usize) -> Position {
        let m = usize::from(self.m);
        Position {
            x: X((cell % m) as u8),
            y: Y((cell / m) as u8),
        }
    }
}
