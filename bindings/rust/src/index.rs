//! Rosters, edits, and the index that answers questions about them.
use crate::error::{check_library, taken};
use crate::raw::EditRecord;
use crate::{layout, raw, Error, Tables, EMPTY};
use std::borrow::Borrow;

/// A value as the engine takes it. A value that would read as "empty" is far out of range, and stays so.
pub(crate) fn number(value: Option<usize>) -> usize {
    value.map_or(EMPTY, |v| v.min(EMPTY - 1))
}

pub(crate) fn value(number: usize) -> Option<usize> {
    (number != EMPTY).then_some(number)
}

/// What each row holds.
///
/// ```
/// use turepawon::Roster;
/// let roster = Roster::new([Some(2), None]);
/// assert_eq!(roster.held(0), Some(2));
/// assert_eq!(roster.rows(), 2);
/// ```
#[derive(Clone, Debug, PartialEq, Eq, Hash)]
pub struct Roster(Vec<usize>);

impl Roster {
    /// One entry a row; `None` is "empty". No board has more than 128 rows, so of what comes behind 129 entries nothing is read.
    #[must_use]
    pub fn new(held: impl IntoIterator<Item = Option<usize>>) -> Roster {
        Roster(held.into_iter().take(layout::MOST_ROWS + 1).map(number).collect())
    }
    /// What a row holds; nothing, for a row out of range.
    #[must_use]
    pub fn held(&self, row: usize) -> Option<usize> {
        self.0.get(row).copied().and_then(value)
    }
    /// How many rows it has.
    #[must_use]
    pub fn rows(&self) -> usize {
        self.0.len()
    }
    /// What each row holds, in row order.
    pub fn iter(&self) -> impl Iterator<Item = Option<usize>> + '_ {
        self.0.iter().copied().map(value)
    }
}

/// A row, and the value that it gets; `None` is "empty".
#[derive(Clone, Copy, Debug, PartialEq, Eq, Hash)]
#[allow(missing_docs)]
pub struct Edit {
    pub row: usize,
    pub value: Option<usize>,
}

impl Edit {
    /// The row gets the value.
    #[must_use]
    pub const fn assign(row: usize, value: usize) -> Edit {
        Edit { row, value: Some(value) }
    }
    /// The row becomes empty.
    #[must_use]
    pub const fn clear(row: usize) -> Edit {
        Edit { row, value: None }
    }
}

impl From<Edit> for EditRecord {
    fn from(edit: Edit) -> EditRecord {
        EditRecord { row: edit.row, value: number(edit.value) }
    }
}

/// The answer to a question.
#[derive(Clone, Copy, Debug, PartialEq, Eq, Hash)]
#[must_use]
#[allow(missing_docs)]
pub enum Verdict {
    Yes,
    No,
}

impl Verdict {
    /// Whether it is yes.
    ///
    /// ```
    /// use turepawon::Verdict;
    /// assert!(Verdict::Yes.is_yes() && !Verdict::No.is_yes());
    /// ```
    #[must_use]
    pub const fn is_yes(self) -> bool {
        matches!(self, Verdict::Yes)
    }
}

/// A capacity key with more than one holder, and its holders in order.
#[derive(Clone, Debug, PartialEq, Eq, Hash)]
#[allow(missing_docs)]
pub struct Conflict {
    pub key: usize,
    pub rows: Vec<usize>,
}

/// Tables and a roster, indexed. The tables are owned, borrowed (`Index<&Tables>`) or shared (`Index<Arc<Tables>>`), as they are handed to [`Index::build`].
///
/// One struct can hold both:
///
/// ```
/// use std::sync::Arc;
/// use turepawon::{Edit, Error, Index, Roster, Tables};
///
/// struct Depot {
///     index: Index, // owns its tables
/// }
/// struct Company {
///     tables: Arc<Tables>,
///     today: Index<Arc<Tables>>,
///     draft: Index<Arc<Tables>>,
/// }
///
/// let tables = Tables::builder(2, 1).legal(1, 0, true).may_be_empty(0, true).build()?;
/// let roster = Roster::new([Some(0), None]);
/// let mut depot = Depot { index: Index::build(tables.clone(), &roster)? };
/// assert!(depot.index.apply(&[Edit::assign(1, 0)])?.is_yes());
/// assert_eq!(depot.index.tables().rows(), 2);
///
/// let tables = Arc::new(tables);
/// let today = Index::build(Arc::clone(&tables), &roster)?;
/// let mut company = Company { tables, draft: today.clone(), today };
/// assert!(company.draft.apply(&[Edit::clear(0)])?.is_yes());
/// assert_eq!(company.today.roster(), roster);
/// assert_eq!(Arc::strong_count(&company.tables), 3);
/// # Ok::<(), Error>(())
/// ```
#[derive(Clone, Debug, PartialEq, Eq, Hash)]
pub struct Index<T = Tables> {
    tables: T,
    pub(crate) records: Vec<usize>,
    pub(crate) members: Vec<usize>,
}

/// An edit list as the engine takes it.
struct List {
    rows: Vec<usize>,
    values: Vec<usize>,
}

impl List {
    fn of(edits: &[Edit]) -> List {
        List { rows: edits.iter().map(|e| e.row).collect(), values: edits.iter().map(|e| number(e.value)).collect() }
    }
}

fn verdict(ask: impl FnOnce(&mut u8) -> u8) -> Result<Verdict, Error> {
    let mut answer = 0;
    taken(ask(&mut answer))?;
    Ok(if answer == 1 { Verdict::Yes } else { Verdict::No })
}

impl<T: Borrow<Tables>> Index<T> {
    /// The index of a roster, which has one entry for each row of the tables.
    ///
    /// ```
    /// use turepawon::{Index, Refusal, Roster, TableData, Tables};
    /// let tables = Tables::new(&TableData::blank(2, 1))?;
    /// assert!(Index::build(&tables, &Roster::new([None, Some(0)])).is_ok());
    /// assert_eq!(Index::build(&tables, &Roster::new([None, Some(1)])), Err(Refusal::ValueOutOfRange.into()));
    /// assert_eq!(Index::build(&tables, &Roster::new([None])), Err(Refusal::Size.into()));
    /// # Ok::<(), turepawon::Error>(())
    /// ```
    ///
    /// # Errors
    /// [`Error::Refused`] by `Size` where the roster has another number of rows, by `ValueOutOfRange` where it holds what is no value; [`Error::Library`].
    pub fn build(tables: T, roster: &Roster) -> Result<Index<T>, Error> {
        check_library()?;
        let rows = tables.borrow().rows();
        let (mut records, mut members) = (vec![0; layout::records_length(rows)], vec![0; layout::members_length(rows)]);
        taken(raw::build_index(tables.borrow().lent(), &roster.0, &mut records, &mut members))?;
        Ok(Index { tables, records, members })
    }

    /// An index from cells that were kept.
    ///
    /// # Errors
    /// [`Error::Refused`] by `Size` where the slices have not their lengths, by `ValueOutOfRange`, and by `FalseIndex` where they are not what these tables and their own values give; [`Error::Library`].
    pub fn from_cells(tables: T, records: Vec<usize>, members: Vec<usize>) -> Result<Index<T>, Error> {
        check_library()?;
        taken(raw::admit(tables.borrow().lent(), &records, &members))?;
        Ok(Index { tables, records, members })
    }

    /// Records and members, as [`layout`] describes them.
    #[must_use]
    pub fn cells(&self) -> (&[usize], &[usize]) {
        (&self.records, &self.members)
    }

    /// The tables that it was built on.
    #[must_use]
    pub fn tables(&self) -> &Tables {
        self.tables.borrow()
    }

    /// The tables as they were handed in.
    #[must_use]
    pub fn into_tables(self) -> T {
        self.tables
    }

    pub(crate) fn lent(&self) -> raw::Lent<'_> {
        self.tables().lent()
    }

    /// What each row holds now.
    #[must_use]
    pub fn roster(&self) -> Roster {
        Roster(self.records.iter().copied().take(self.tables().rows()).collect())
    }

    /// For loading a roster: gives every listed row its value. Neither legality nor feasibility is asked; to change a roster that is in use, [`Index::apply`] the edits.
    ///
    /// ```
    /// use turepawon::{Edit, Index, Refusal, Roster, TableData, Tables};
    /// let tables = Tables::new(&TableData::blank(2, 1))?;
    /// let mut index = Index::build(&tables, &Roster::new([None, None]))?;
    /// // nothing is legal on this board, and a roster may hold it all the same
    /// index.refresh_rows(&[Edit::assign(1, 0)])?;
    /// assert_eq!(index.roster().held(1), Some(0));
    /// assert_eq!(index.refresh_rows(&[Edit::clear(1), Edit::clear(1)]), Err(Refusal::RowNamedTwice.into()));
    /// assert_eq!(index.roster().held(1), Some(0));
    /// # Ok::<(), turepawon::Error>(())
    /// ```
    ///
    /// # Errors
    /// [`Error::Refused`] by `RowOutOfRange`, `RowNamedTwice` or `ValueOutOfRange`, as the first bad edit has it. A refused list changes nothing.
    pub fn refresh_rows(&mut self, edits: &[Edit]) -> Result<(), Error> {
        let list = List::of(edits);
        taken(raw::refresh_rows(self.tables.borrow().lent(), &mut self.records, &mut self.members, &list.rows, &list.values))
    }

    /// Whether the edits may be made together: rows distinct and in range, values legal, no required row emptied, room for every key that is touched, and no forbidden neighbours where the edge rule is in force. It only asks: [`Index::apply`] asks and makes them.
    ///
    /// # Errors
    /// None that this version knows: tables and index were seen when it was built. So it is with every question that has no `# Errors` of its own.
    pub fn assignment_feasible_after_edits(&self, edits: &[Edit]) -> Result<Verdict, Error> {
        let list = List::of(edits);
        verdict(|answer| raw::assignment_feasible_after_edits(self.lent(), &self.records, &self.members, &list.rows, &list.values, answer))
    }

    /// The same of edits that are records already: nothing is packed, the slice is lent as it stands.
    ///
    /// ```
    /// use turepawon::{Edit, EditRecord, Index, Roster, Tables, Verdict};
    /// let tables = Tables::builder(2, 1).may_be_empty(0, true).build()?;
    /// let index = Index::build(&tables, &Roster::new([Some(0), None]))?;
    /// let leave = EditRecord::from(Edit::clear(0));
    /// assert_eq!(index.assignment_feasible_after_edit_records(&[leave])?, Verdict::Yes);
    /// assert_eq!(index.assignment_feasible_after_edit_records(&[leave, leave])?, Verdict::No);
    /// # Ok::<(), turepawon::Error>(())
    /// ```
    ///
    /// # Errors
    /// As [`Index::assignment_feasible_after_edits`].
    pub fn assignment_feasible_after_edit_records(&self, edits: &[EditRecord]) -> Result<Verdict, Error> {
        verdict(|answer| raw::assignment_feasible_after_edit_records(edits, self.lent(), &self.records, &self.members, answer))
    }

    /// Makes the edits, if they may be made together: they are tested as by [`Index::assignment_feasible_after_edits`] and, where the answer is yes, applied, in one call. Where it is no, the index is as it was.
    ///
    /// Only what the edits touch is judged: a roster that was sound is so after a yes, and one that was not need not be.
    ///
    /// ```
    /// use turepawon::{Edit, Index, Roster, Tables, Verdict};
    /// let mut board = Tables::builder(2, 2);
    /// for duty in 0..2 {
    ///     for driver in 0..2 {
    ///         board.legal(duty, driver, true).capacity(duty, driver, driver);
    ///     }
    /// }
    /// let mut index = Index::build(board.build()?, &Roster::new([Some(0), Some(1)]))?;
    /// assert_eq!(index.apply(&[Edit::assign(0, 1), Edit::assign(1, 0)])?, Verdict::Yes);
    /// assert_eq!(index.roster(), Roster::new([Some(1), Some(0)]));
    ///
    /// // driver 0 cannot take both duties, and there is no duty 2: the index stays as it is
    /// let before = index.clone();
    /// assert_eq!(index.apply(&[Edit::assign(0, 0)])?, Verdict::No);
    /// assert_eq!(index.apply(&[Edit::assign(2, 0)])?, Verdict::No);
    /// assert_eq!(index, before);
    /// # Ok::<(), turepawon::Error>(())
    /// ```
    ///
    /// # Errors
    /// As [`Index::assignment_feasible_after_edits`]: a row or a value that does not fit is answered no.
    pub fn apply(&mut self, edits: &[Edit]) -> Result<Verdict, Error> {
        let list = List::of(edits);
        verdict(|answer| {
            let lent = self.tables.borrow().lent();
            raw::assignment_apply_edits(lent, &mut self.records, &mut self.members, &list.rows, &list.values, answer)
        })
    }

    /// Whether the row may take the value after the edits. A required row may be empty in them; only this row and value are judged.
    ///
    /// ```
    /// use turepawon::{Edit, Index, Roster, Tables, Verdict};
    /// let mut board = Tables::builder(2, 1);
    /// for row in 0..2 {
    ///     board.legal(row, 0, true).required(row, true).may_be_empty(row, true).capacity(row, 0, 9);
    /// }
    /// let index = Index::build(board.build()?, &Roster::new([Some(0), None]))?;
    /// let edits = [Edit::clear(0), Edit::assign(1, 0)];
    /// assert_eq!(index.reinsert_value_allowed(&edits, 1, 0)?, Verdict::Yes);
    /// assert_eq!(index.reinsert_value_allowed(&edits[1..], 1, 0)?, Verdict::No);
    /// # Ok::<(), turepawon::Error>(())
    /// ```
    ///
    /// # Errors
    /// As [`Index::assignment_feasible_after_edits`].
    pub fn reinsert_value_allowed(&self, edits: &[Edit], row: usize, value: usize) -> Result<Verdict, Error> {
        let list = List::of(edits);
        verdict(|answer| {
            raw::reinsert_value_allowed(self.lent(), &self.records, &self.members, &list.rows, &list.values, row, value, answer)
        })
    }

    /// Whether the roster is sound: no key has two holders, where the edge rule is in force every neighbouring pair is allowed, and every value that is held is legal for its row. An empty row holds nothing illegal, though it may not be empty.
    ///
    /// ```
    /// use turepawon::{Index, Roster, Tables, Verdict};
    /// let mut board = Tables::builder(2, 1);
    /// board.legal(0, 0, true); // and not for row 1
    /// let board = board.build()?;
    /// assert_eq!(Index::build(&board, &Roster::new([Some(0), None]))?.roster_sound()?, Verdict::Yes);
    /// assert_eq!(Index::build(&board, &Roster::new([None, Some(0)]))?.roster_sound()?, Verdict::No);
    /// # Ok::<(), turepawon::Error>(())
    /// ```
    ///
    /// # Errors
    /// As [`Index::assignment_feasible_after_edits`].
    pub fn roster_sound(&self) -> Result<Verdict, Error> {
        verdict(|answer| raw::roster_sound(self.lent(), &self.records, &self.members, answer))
    }

    /// The keys with two or more holders: required holders first, then by order key (none first) and row; keys in the order of their first holders.
    ///
    /// ```
    /// use turepawon::{Conflict, Index, Roster, Tables, Verdict};
    /// let mut board = Tables::builder(3, 1);
    /// board.required(2, true);
    /// for row in 0..3 {
    ///     board.capacity(row, 0, 5);
    /// }
    /// let index = Index::build(board.build()?, &Roster::new([Some(0), None, Some(0)]))?;
    /// assert_eq!(index.capacity_conflicts()?, [Conflict { key: 5, rows: vec![2, 0] }]);
    /// assert_eq!(index.roster_sound()?, Verdict::No);
    /// # Ok::<(), turepawon::Error>(())
    /// ```
    ///
    /// # Errors
    /// As [`Index::assignment_feasible_after_edits`].
    pub fn capacity_conflicts(&self) -> Result<Vec<Conflict>, Error> {
        let rows = self.tables().rows();
        let (mut keys, mut holders, mut count) = (vec![0; rows], vec![0; rows], 0);
        taken(raw::capacity_conflicts(self.lent(), &self.records, &self.members, &mut keys, &mut holders, &mut count))?;
        let mut conflicts: Vec<Conflict> = Vec::new();
        for (&key, &row) in keys.iter().zip(&holders).take(count) {
            match conflicts.last_mut().filter(|c| c.key == key) {
                Some(conflict) => conflict.rows.push(row),
                None => conflicts.push(Conflict { key, rows: vec![row] }),
            }
        }
        Ok(conflicts)
    }
}
