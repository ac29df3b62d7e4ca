//! The order of the rows that hold a value, the moves that shift values round its windows, and the ejection of a window.
use crate::error::{check_library, taken};
use crate::layout::MOST_IN_ORDER;
use crate::outputs::Outputs;
use crate::{raw, Edit, Error, Index, Tables};
use std::borrow::Borrow;

/// Rows in the order that windows are cut from. Any list of numbers is one, also with a row twice or out of range; a step takes at most 128 of them.
///
/// ```
/// use turepawon::Order;
/// let order = Order::new([2, 0, 1]);
/// assert_eq!(order.rows(), [2, 0, 1]);
/// ```
#[derive(Clone, Debug, PartialEq, Eq, Hash)]
pub struct Order(Vec<usize>);

impl Order {
    /// An order of one's own. What comes behind 129 rows is not read: so many are refused already.
    #[must_use]
    pub fn new(rows: impl IntoIterator<Item = usize>) -> Order {
        Order(rows.into_iter().take(MOST_IN_ORDER + 1).collect())
    }
    /// The rows, first to last.
    #[must_use]
    pub fn rows(&self) -> &[usize] {
        &self.0
    }
}

/// Where a walk over the windows of an order stands that are shifted round ([`crate::EjectionCursor`] is for those that are ejected). It is plain data: it can be kept, and one that does not fit its order is refused. The library is lent it as it lies.
#[repr(C)]
#[derive(Clone, Copy, Debug, PartialEq, Eq, Hash)]
pub struct Cursor {
    /// The window's first place in the order.
    pub start: usize,
    /// How many rows the window has: 3 or more.
    pub length: usize,
    /// The next shift of the window: 0 is by one place, 1 by one less than the length, 2 is behind both.
    pub variant: usize,
    /// The length of the longest window.
    pub longest: usize,
}

impl Cursor {
    /// The cursor that a walk begins with: windows of at most `size` rows.
    ///
    /// ```
    /// use turepawon::{Cursor, Order, Refusal};
    /// let order = Order::new(0..4);
    /// assert_eq!(Cursor::new(&order, 9)?, Cursor { start: 0, length: 3, variant: 0, longest: 4 });
    /// assert_eq!(Cursor::new(&Order::new(0..129), 3), Err(Refusal::Size.into()));
    /// # Ok::<(), turepawon::Error>(())
    /// ```
    ///
    /// # Errors
    /// [`Error::Refused`] by `Size`, for an order of over 128 rows; [`Error::Library`].
    pub fn new(order: &Order, size: usize) -> Result<Cursor, Error> {
        first_cells(order, size, raw::new_cursor).map(Cursor::of)
    }
    fn of([start, length, variant, longest]: raw::CursorCells) -> Cursor {
        Cursor { start, length, variant, longest }
    }
    fn cells(self) -> raw::CursorCells {
        [self.start, self.length, self.variant, self.longest]
    }
}

/// What the export writes that begins a walk over an order, with windows of at most `size` rows.
pub(crate) fn first_cells(
    order: &Order,
    size: usize,
    begin: fn(usize, usize, &mut raw::CursorCells) -> u8,
) -> Result<raw::CursorCells, Error> {
    check_library()?;
    let mut cells = [0; 4];
    taken(begin(order.0.len(), size, &mut cells))?;
    Ok(cells)
}

/// What a step of a cursor finds.
#[derive(Clone, Debug, PartialEq, Eq, Hash)]
#[must_use]
pub enum Step {
    /// A move: edits that pass the final test together, which [`Index::apply`] makes.
    Move(Vec<Edit>),
    /// No move any more.
    Done,
}

/// What a walk in one call finds.
#[derive(Clone, Debug, PartialEq, Eq, Hash)]
#[must_use]
pub struct Walk {
    /// The moves that had room, one behind the other, as single steps give them.
    pub moves: Vec<Vec<Edit>>,
    /// Whether no move is left. Where one is, the next walk goes on from the cursor.
    pub done: bool,
}

/// What comes of lifting the rows of a window out and putting them back.
#[derive(Clone, Debug, PartialEq, Eq, Hash)]
#[must_use]
pub enum Ejection {
    /// A required row found no value.
    None,
    /// The edits that change something. They need not pass the final test.
    Edits(Vec<Edit>),
}

/// The most edits that the moves of an order of so many rows have in all: each window is shifted in two ways.
fn most_edits(count: usize) -> usize {
    let count = count.min(MOST_IN_ORDER);
    (3..=count).map(|length| 2 * length * (count - length + 1)).sum()
}

impl<T: Borrow<Tables>> Index<T> {
    /// The rows that hold a value: by position, then order key, then row, what has none first; then rotated to the left by the offset, modulo their number.
    ///
    /// ```
    /// use turepawon::{Index, Order, Roster, Tables};
    /// let tables = Tables::builder(3, 1).position(0, 7).position(2, -7).build()?;
    /// let index = Index::build(&tables, &Roster::new([Some(0), Some(0), Some(0)]))?;
    /// assert_eq!(index.assigned_entities_by_position(0)?, Order::new([1, 2, 0]));
    /// assert_eq!(index.assigned_entities_by_position(4)?, Order::new([2, 0, 1]));
    /// # Ok::<(), turepawon::Error>(())
    /// ```
    ///
    /// # Errors
    /// As [`Index::assignment_feasible_after_edits`].
    pub fn assigned_entities_by_position(&self, offset: usize) -> Result<Order, Error> {
        let (mut rows, mut count) = (vec![0; self.tables().rows()], 0);
        taken(raw::assigned_entities_by_position(self.lent(), &self.records, &self.members, offset, &mut rows, &mut count))?;
        rows.truncate(count);
        Ok(Order(rows))
    }

    /// The next move, from the cursor on: the values of a window shifted round it. The cursor is then right behind that move, or at the end.
    ///
    /// ```
    /// use turepawon::{Cursor, Edit, Index, Refusal, Roster, Step, TableData, Tables};
    /// let mut data = TableData::blank(3, 3);
    /// data.legal.fill(1);
    /// let index = Index::build(Tables::new(&data)?, &Roster::new([Some(0), Some(1), Some(2)]))?;
    /// let order = index.assigned_entities_by_position(0)?;
    /// let mut cursor = Cursor::new(&order, 3)?;
    /// let first = vec![Edit::assign(0, 1), Edit::assign(1, 2), Edit::assign(2, 0)];
    /// let second = vec![Edit::assign(0, 2), Edit::assign(1, 0), Edit::assign(2, 1)];
    /// assert_eq!(index.next_augmenting_rematch(&order, &mut cursor)?, Step::Move(first));
    /// assert_eq!(index.next_augmenting_rematch(&order, &mut cursor)?, Step::Move(second));
    /// assert_eq!(index.next_augmenting_rematch(&order, &mut cursor)?, Step::Done);
    /// cursor.variant = 3;
    /// assert_eq!(index.next_augmenting_rematch(&order, &mut cursor), Err(Refusal::BadCursor.into()));
    /// # Ok::<(), turepawon::Error>(())
    /// ```
    ///
    /// # Errors
    /// [`Error::Refused`] by `BadCursor` where the cursor does not fit the order, by `Size` for an order of over 128 rows. A refusal leaves the cursor as it was.
    pub fn next_augmenting_rematch(&self, order: &Order, cursor: &mut Cursor) -> Result<Step, Error> {
        let mut cells = cursor.cells();
        let step = self.step(|Outputs { rows, values, flag, count }| {
            raw::next_augmenting_rematch(self.lent(), &self.records, &self.members, &order.0, &mut cells, rows, values, flag, count)
        })?;
        *cursor = Cursor::of(cells);
        Ok(step)
    }

    /// The same, with the cursor itself lent to the library, which moves it on where it stands.
    ///
    /// # Errors
    /// As [`Index::next_augmenting_rematch`].
    pub fn next_augmenting_rematch_at(&self, order: &Order, cursor: &mut Cursor) -> Result<Step, Error> {
        self.step(|Outputs { rows, values, flag, count }| {
            raw::next_augmenting_rematch_at(cursor, self.lent(), &self.records, &self.members, &order.0, rows, values, flag, count)
        })
    }

    /// What a step of either kind of cursor comes to: there is room for all rows.
    pub(crate) fn step(&self, ask: impl FnOnce(&mut Outputs) -> u8) -> Result<Step, Error> {
        let mut out = Outputs::new(self.tables().rows());
        taken(ask(&mut out))?;
        Ok(out.edits().map_or(Step::Done, Step::Move))
    }

    /// The moves from the cursor on, in one call: tables and index are validated once, and the work of a step is all that a move costs. There is room for so many moves, which have so many edits in all; any number will do, and no more is set aside than the order can need. The cursor is then right behind the last move, or at the end where the walk is done.
    ///
    /// ```
    /// use turepawon::{Cursor, Edit, Index, Refusal, Roster, TableData, Tables, Walk};
    /// let mut data = TableData::blank(3, 3);
    /// data.legal.fill(1);
    /// let index = Index::build(Tables::new(&data)?, &Roster::new([Some(0), Some(1), Some(2)]))?;
    /// let order = index.assigned_entities_by_position(0)?;
    /// let mut cursor = Cursor::new(&order, 3)?;
    /// let first = vec![Edit::assign(0, 1), Edit::assign(1, 2), Edit::assign(2, 0)];
    /// let second = vec![Edit::assign(0, 2), Edit::assign(1, 0), Edit::assign(2, 1)];
    /// // room for one of them at a time
    /// assert_eq!(index.walk_augmenting_rematch(&order, &mut cursor, 5)?, Walk { moves: vec![first.clone()], done: false });
    /// assert_eq!(index.walk_augmenting_rematch(&order, &mut cursor, 5)?, Walk { moves: vec![second.clone()], done: true });
    /// // and for both
    /// cursor = Cursor::new(&order, 3)?;
    /// assert_eq!(index.walk_augmenting_rematch(&order, &mut cursor, usize::MAX)?, Walk { moves: vec![first, second], done: true });
    /// assert_eq!(index.walk_augmenting_rematch(&order, &mut cursor, 2), Err(Refusal::TooLittleRoom.into()));
    /// # Ok::<(), turepawon::Error>(())
    /// ```
    ///
    /// # Errors
    /// As [`Index::next_augmenting_rematch`]; and [`Error::Refused`] by `TooLittleRoom`, for less room than there are rows.
    pub fn walk_augmenting_rematch(&self, order: &Order, cursor: &mut Cursor, room: usize) -> Result<Walk, Error> {
        let room = room.min(most_edits(order.0.len()).max(self.tables().rows()));
        let (mut out, mut lengths) = (Outputs::new(room), vec![0; room]);
        let (mut cells, mut moves) = (cursor.cells(), 0);
        taken(raw::walk_augmenting_rematch(
            self.lent(),
            &self.records,
            &self.members,
            &order.0,
            &mut cells,
            &mut out.rows,
            &mut out.values,
            &mut lengths,
            &mut out.flag,
            &mut moves,
            &mut out.count,
        ))?;
        *cursor = Cursor::of(cells);
        lengths.truncate(moves);
        Ok(Walk { moves: out.moves(&lengths), done: out.flag == 1 })
    }

    /// Lifts the rows of a window out and puts each back with the first of its candidates that is allowed. The attempt says at which row and at which candidate to begin, each modulo their number; with a limit only the first candidates of a row are offered.
    ///
    /// ```
    /// use turepawon::{Edit, Ejection, Index, Roster, Tables};
    /// let mut board = Tables::builder(2, 2);
    /// board.required(0, true).may_be_empty(1, true);
    /// for row in 0..2 {
    ///     board.candidates(row, [0, 1]);
    ///     for driver in 0..2 {
    ///         board.legal(row, driver, true).capacity(row, driver, driver);
    ///     }
    /// }
    /// let index = Index::build(board.build()?, &Roster::new([Some(1), Some(0)]))?;
    /// let swapped = vec![Edit::assign(0, 0), Edit::assign(1, 1)];
    /// assert_eq!(index.ejection_reinsert_edits(&[0, 1], 0, None)?, Ejection::Edits(swapped));
    /// assert_eq!(index.ejection_reinsert_edits(&[0, 1], 0, Some(0))?, Ejection::None);
    /// # Ok::<(), turepawon::Error>(())
    /// ```
    ///
    /// # Errors
    /// [`Error::Refused`] by `Size`, for a window of over 128 rows.
    pub fn ejection_reinsert_edits(&self, window: &[usize], attempt: usize, limit: Option<usize>) -> Result<Ejection, Error> {
        let mut out = Outputs::new(window.len().min(MOST_IN_ORDER));
        taken(raw::ejection_reinsert_edits(
            self.lent(),
            &self.records,
            &self.members,
            window,
            attempt,
            limit.unwrap_or(usize::MAX),
            &mut out.rows,
            &mut out.values,
            &mut out.flag,
            &mut out.count,
        ))?;
        Ok(out.edits().map_or(Ejection::None, Ejection::Edits))
    }
}
