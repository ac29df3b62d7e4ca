//! The two kinds of cursors over windows, told by what they differ in.
use crate::Cursor;

#[derive(Clone, Copy)]
pub struct Windows {
    /// The rows of the shortest window.
    pub least: usize,
    /// How many tries a window of so many rows has.
    pub tries: fn(usize) -> usize,
}

pub const REMATCHES: Windows = Windows { least: 3, tries: |_| 2 };
pub const EJECTIONS: Windows = Windows { least: 2, tries: |rows| rows };

impl Windows {
    /// Where a walk begins.
    pub fn first(self, longest: usize) -> Cursor {
        Cursor { start: 0, len: self.least, variant: 0, longest }
    }

    /// The cursor over an order of so many rows: its longest window is the smaller of size and count, but at least 2.
    pub fn first_of(self, count: usize, size: usize) -> Cursor {
        self.first(size.min(count).max(2))
    }

    /// Whether a cursor is one over an order of so many rows.
    pub fn fit(self, at: &Cursor, count: usize) -> bool {
        at.start <= count
            && (self.least..=at.longest.max(self.least)).contains(&at.len)
            && at.variant <= (self.tries)(at.len)
            && (2..=count.max(2)).contains(&at.longest)
    }
}
