//! The moves of an order, one after the other.
use crate::{Cursor, Edit, Error, Index, Order, Tables};
use std::borrow::Borrow;
use std::iter::FusedIterator;

/// No call of the iterator has room for more edits than this.
const MOST_ROOM: usize = 4096;

/// The moves from a cursor on: [`Index::rematches`].
#[derive(Clone, Debug)]
#[must_use]
pub struct Rematches<'a, T = Tables> {
    index: &'a Index<T>,
    order: &'a Order,
    cursor: Cursor,
    room: usize,
    found: std::vec::IntoIter<Vec<Edit>>,
    done: bool,
}

impl<T: Borrow<Tables>> Index<T> {
    /// The moves from the cursor on, as an iterator: what [`Index::next_augmenting_rematch`] gives step by step. The index is borrowed meanwhile, so a move is applied ([`Index::apply`]) when the iterator is gone.
    ///
    /// It goes by [`Index::walk_augmenting_rematch`]: the first call has room for as many edits as there are rows, each later one for twice as many as the one before, up to 4,096. So the first move costs one validation of tables and index (1.3 µs on a full board, docs/BENCHMARKS.md) and the search for at most that many edits; all moves of an order cost a validation for each call, and a list of its own for each move. What was found and not taken is lost. To know the cursor behind a move, take steps.
    ///
    /// ```
    /// use turepawon::{Cursor, Edit, Index, Roster, TableData, Tables};
    /// let mut data = TableData::blank(3, 3);
    /// data.legal.fill(1);
    /// let mut index = Index::build(Tables::new(&data)?, &Roster::new([Some(0), Some(1), Some(2)]))?;
    /// let order = index.assigned_entities_by_position(0)?;
    /// let moves = index.rematches(&order, Cursor::new(&order, 3)?).collect::<Result<Vec<_>, _>>()?;
    /// assert_eq!(moves.len(), 2);
    /// assert_eq!(moves[0], [Edit::assign(0, 1), Edit::assign(1, 2), Edit::assign(2, 0)]);
    /// assert!(index.apply(&moves[0])?.is_yes());
    /// assert_eq!(index.roster(), Roster::new([Some(1), Some(2), Some(0)]));
    /// # Ok::<(), turepawon::Error>(())
    /// ```
    ///
    /// An item is an error where the cursor does not fit the order, or the order has over 128 rows; nothing comes after it.
    pub fn rematches<'a>(&'a self, order: &'a Order, cursor: Cursor) -> Rematches<'a, T> {
        Rematches { index: self, order, cursor, room: self.tables().rows(), found: Vec::new().into_iter(), done: false }
    }
}

impl<T: Borrow<Tables>> Iterator for Rematches<'_, T> {
    type Item = Result<Vec<Edit>, Error>;

    fn next(&mut self) -> Option<Self::Item> {
        // a walk that is not done has found a move
        while self.found.len() == 0 && !self.done {
            match self.index.walk_augmenting_rematch(self.order, &mut self.cursor, self.room) {
                Ok(walk) => (self.found, self.done) = (walk.moves.into_iter(), walk.done),
                Err(error) => {
                    self.done = true;
                    return Some(Err(error));
                }
            }
            self.room = (2 * self.room).min(MOST_ROOM);
        }
        self.found.next().map(Ok)
    }
}

impl<T: Borrow<Tables>> FusedIterator for Rematches<'_, T> {}
