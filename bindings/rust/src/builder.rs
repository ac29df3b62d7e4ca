//! Tables set cell by cell, with flags as bools.
use crate::tables::size_fits;
use crate::{TableData, TableFault, Tables};

/// Tables in the making. At first every flag is no, nothing is given, and no row has candidates. What is out of range is no panic: [`TableBuilder::build`] tells the first that was.
///
/// ```
/// use turepawon::{Index, Roster, TableFault, Tables};
///
/// // two duties, one driver, who cannot have both; duty 0 has to be driven
/// let mut board = Tables::builder(2, 1);
/// board.required(0, true).may_be_empty(1, true);
/// for duty in 0..2 {
///     board.legal(duty, 0, true).capacity(duty, 0, 0).candidates(duty, [0]);
/// }
/// let index = Index::build(board.build()?, &Roster::new([Some(0), Some(0)]))?;
/// assert_eq!(index.capacity_conflicts()?[0].rows, [0, 1]);
///
/// board.legal(2, 0, true);
/// assert_eq!(board.build(), Err(TableFault::RowOutOfRange(2)));
/// # Ok::<(), turepawon::Error>(())
/// ```
#[derive(Clone, Debug, PartialEq, Eq, Hash)]
pub struct TableBuilder {
    data: TableData,
    fault: Option<TableFault>,
}

impl TableBuilder {
    /// For so many rows (duties) and values (drivers).
    #[must_use]
    pub fn new(rows: usize, values: usize) -> TableBuilder {
        TableBuilder { data: TableData::blank(rows, values), fault: size_fits(rows, values).err() }
    }

    fn noting(&mut self, done: Result<(), TableFault>) -> &mut TableBuilder {
        self.fault = self.fault.or(done.err());
        self
    }

    /// Whether the edge rule is in force.
    pub fn edge_rule(&mut self, in_force: bool) -> &mut TableBuilder {
        self.data.edge_rule = in_force;
        self
    }

    /// Whether the row has to have a value.
    pub fn required(&mut self, row: usize, required: bool) -> &mut TableBuilder {
        let done = self.data.set_required(row, required);
        self.noting(done)
    }

    /// Whether the row may be empty.
    pub fn may_be_empty(&mut self, row: usize, may: bool) -> &mut TableBuilder {
        let done = self.data.set_may_be_empty(row, may);
        self.noting(done)
    }

    /// The row's position, or none.
    pub fn position(&mut self, row: usize, position: impl Into<Option<i64>>) -> &mut TableBuilder {
        let done = self.data.set_position(row, position.into());
        self.noting(done)
    }

    /// The row's order key, or none.
    pub fn order(&mut self, row: usize, order: impl Into<Option<i64>>) -> &mut TableBuilder {
        let done = self.data.set_order(row, order.into());
        self.noting(done)
    }

    /// The row's candidates, in the order in which they are tried: at most 64.
    pub fn candidates(&mut self, row: usize, values: impl IntoIterator<Item = usize>) -> &mut TableBuilder {
        // one more than fits, so that too many are found out, however many there are
        let cells = values.into_iter().take(65).map(u8::try_from).collect::<Result<Vec<u8>, _>>();
        let done = cells.map_err(|_| TableFault::Candidates { row }).and_then(|cells| self.data.set_candidates(row, &cells));
        self.noting(done)
    }

    /// Whether the value is legal for the row.
    pub fn legal(&mut self, row: usize, value: usize, legal: bool) -> &mut TableBuilder {
        let done = self.data.set_legal(row, value, legal);
        self.noting(done)
    }

    /// What the row uses up under the value, of which there is one, or nothing.
    pub fn capacity(&mut self, row: usize, value: usize, key: impl Into<Option<usize>>) -> &mut TableBuilder {
        let done = self.data.set_capacity(row, value, key.into());
        self.noting(done)
    }

    /// Where the row stands in the value's run of rows, or nowhere.
    pub fn sequence(&mut self, row: usize, value: usize, sequence: impl Into<Option<usize>>) -> &mut TableBuilder {
        let done = self.data.set_sequence(row, value, sequence.into());
        self.noting(done)
    }

    /// Whether `right` may directly follow `left` under one value.
    pub fn edge(&mut self, left: usize, right: usize, allowed: bool) -> &mut TableBuilder {
        let done = self.data.set_edge(left, right, allowed);
        self.noting(done)
    }

    /// The tables.
    ///
    /// # Errors
    /// The first thing that was out of range, or a candidate that is no value.
    pub fn build(&self) -> Result<Tables, TableFault> {
        match self.fault {
            Some(fault) => Err(fault),
            None => Tables::new(&self.data),
        }
    }
}
