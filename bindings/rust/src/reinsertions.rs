//! The ejection windows of an order, walked: rows lifted out and put back otherwise, one move after the other.
use crate::outputs::Outputs;
use crate::windows::first_cells;
use crate::{raw, Edit, Error, Index, Order, Step, Tables};
use std::borrow::Borrow;
use std::iter::FusedIterator;

/// Where a walk over the ejection windows of an order stands. It is plain data: it can be kept, and one that does not fit its order is refused.
///
/// A type of its own beside [`crate::Cursor`], whose numbers would mostly be taken here too, and leave out windows.
#[derive(Clone, Copy, Debug, PartialEq, Eq, Hash)]
pub struct EjectionCursor {
    /// The window's first place in the order.
    pub start: usize,
    /// How many rows the window has: 2 or more.
    pub length: usize,
    /// The next attempt at the window: 0 to one less than the length; the length is behind all.
    pub attempt: usize,
    /// The length of the longest window.
    pub longest: usize,
}

impl EjectionCursor {
    /// The cursor that a walk begins with: windows of at most `size` rows.
    ///
    /// ```
    /// use turepawon::{EjectionCursor, Order, Refusal};
    /// let order = Order::new(0..4);
    /// assert_eq!(EjectionCursor::new(&order, 9)?, EjectionCursor { start: 0, length: 2, attempt: 0, longest: 4 });
    /// assert_eq!(EjectionCursor::new(&Order::new(0..129), 3), Err(Refusal::Size.into()));
    /// # Ok::<(), turepawon::Error>(())
    /// ```
    ///
    /// # Errors
    /// [`Error::Refused`] by `Size`, for an order of over 128 rows; [`Error::Library`].
    pub fn new(order: &Order, size: usize) -> Result<EjectionCursor, Error> {
        first_cells(order, size, raw::new_ejection_cursor).map(EjectionCursor::of)
    }
    fn of([start, length, attempt, longest]: raw::CursorCells) -> EjectionCursor {
        EjectionCursor { start, length, attempt, longest }
    }
    fn cells(self) -> raw::CursorCells {
        [self.start, self.length, self.attempt, self.longest]
    }
}

/// The moves from an ejection cursor on: [`Index::reinsertions`].
#[derive(Clone, Debug)]
#[must_use]
pub struct Reinsertions<'a, T = Tables> {
    index: &'a Index<T>,
    order: &'a Order,
    cursor: EjectionCursor,
    limit: Option<usize>,
    done: bool,
}

impl<T: Borrow<Tables>> Index<T> {
    /// The next move, from the cursor on: the rows of a window lifted out and put back. Tried are all windows from 2 rows on, each in as many attempts as it has rows; a try is [`Index::ejection_reinsert_edits`] with the limit, and a move where its list has an edit and passes the final test. The cursor is then right behind that move, or at the end.
    ///
    /// ```
    /// use turepawon::{Edit, EjectionCursor, Index, Refusal, Roster, Step, Tables};
    /// let mut board = Tables::builder(3, 3);
    /// for row in 0..3 {
    ///     board.required(row, true).may_be_empty(row, true).candidates(row, 0..3);
    ///     for driver in 0..3 {
    ///         board.legal(row, driver, true).capacity(row, driver, driver);
    ///     }
    /// }
    /// let index = Index::build(board.build()?, &Roster::new([Some(0), Some(1), Some(2)]))?;
    /// let order = index.assigned_entities_by_position(0)?;
    /// let mut cursor = EjectionCursor::new(&order, 2)?;
    /// // the second attempt at rows 1 and 2 begins with row 2, and with the second candidate
    /// let swap = vec![Edit::assign(1, 2), Edit::assign(2, 1)];
    /// assert_eq!(index.next_ejection_reinsert(&order, &mut cursor, None)?, Step::Move(swap));
    /// assert_eq!(cursor, EjectionCursor { start: 1, length: 2, attempt: 2, longest: 2 });
    /// assert_eq!(index.next_ejection_reinsert(&order, &mut cursor, None)?, Step::Done);
    /// cursor.attempt = 3;
    /// assert_eq!(index.next_ejection_reinsert(&order, &mut cursor, None), Err(Refusal::BadCursor.into()));
    /// # Ok::<(), turepawon::Error>(())
    /// ```
    ///
    /// # Errors
    /// As [`Index::next_augmenting_rematch`].
    pub fn next_ejection_reinsert(&self, order: &Order, cursor: &mut EjectionCursor, limit: Option<usize>) -> Result<Step, Error> {
        let (mut cells, offered) = (cursor.cells(), limit.unwrap_or(usize::MAX));
        let step = self.step(|Outputs { rows, values, flag, count }| {
            let (records, members) = (&self.records, &self.members);
            raw::next_ejection_reinsert(self.lent(), records, members, order.rows(), &mut cells, offered, rows, values, flag, count)
        })?;
        *cursor = EjectionCursor::of(cells);
        Ok(step)
    }

    /// The moves from the cursor on, as an iterator: what [`Index::next_ejection_reinsert`] gives step by step, by which it goes. So each move costs one validation of tables and index (1.3 µs on a full board, docs/BENCHMARKS.md) and the tries up to it. The index is borrowed meanwhile, so a move is applied ([`Index::apply`]) when the iterator is gone. To know the cursor behind a move, take steps.
    ///
    /// ```
    /// use turepawon::{Edit, EjectionCursor, Index, Roster, Tables};
    /// let mut board = Tables::builder(2, 3);
    /// for row in 0..2 {
    ///     board.required(row, true).may_be_empty(row, true).candidates(row, 0..3);
    ///     for driver in 0..3 {
    ///         board.legal(row, driver, true).capacity(row, driver, driver);
    ///     }
    /// }
    /// let index = Index::build(board.build()?, &Roster::new([Some(0), Some(2)]))?;
    /// let order = index.assigned_entities_by_position(0)?;
    /// let first = EjectionCursor::new(&order, 2)?;
    /// let moves = index.reinsertions(&order, first, None).collect::<Result<Vec<_>, _>>()?;
    /// assert_eq!(moves, [vec![Edit::assign(1, 1)], vec![Edit::assign(0, 2), Edit::assign(1, 1)]]);
    /// // with two candidates a row both attempts come to the same list, and each is given
    /// let moves = index.reinsertions(&order, first, Some(2)).collect::<Result<Vec<_>, _>>()?;
    /// assert_eq!(moves, [vec![Edit::assign(1, 1)], vec![Edit::assign(1, 1)]]);
    /// # Ok::<(), turepawon::Error>(())
    /// ```
    ///
    /// An item is an error where the cursor does not fit the order, or the order has over 128 rows; nothing comes after it.
    pub fn reinsertions<'a>(&'a self, order: &'a Order, cursor: EjectionCursor, limit: Option<usize>) -> Reinsertions<'a, T> {
        Reinsertions { index: self, order, cursor, limit, done: false }
    }
}

impl<T: Borrow<Tables>> Iterator for Reinsertions<'_, T> {
    type Item = Result<Vec<Edit>, Error>;

    fn next(&mut self) -> Option<Self::Item> {
        if self.done {
            return None;
        }
        let step = self.index.next_ejection_reinsert(self.order, &mut self.cursor, self.limit);
        self.done = !matches!(step, Ok(Step::Move(_)));
        match step {
            Ok(Step::Move(edits)) => Some(Ok(edits)),
            Ok(Step::Done) => None,
            Err(error) => Some(Err(error)),
        }
    }
}

impl<T: Borrow<Tables>> FusedIterator for Reinsertions<'_, T> {}
