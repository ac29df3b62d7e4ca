//! The tables: plain data that is checked table by table, and the packed form that the engine is lent.
use crate::layout::{self, MOST_CANDIDATES, MOST_ROWS, MOST_VALUES};
use crate::{raw, Refusal, TableBuilder};
use std::fmt;

/// The fourteen tables as plain data. Flags: 0 is no, all else yes. A table over rows and values is read at `row * values + value`, edges at `left * rows + right`, candidates at `row * 64 + place`. What is not given is not read. [`TableBuilder`] has flags as bools.
///
/// ```
/// use turepawon::{TableData, TableFault, Tables};
/// let mut data = TableData::blank(2, 3);
/// data.required[1] = 1;
/// data.set_candidates(1, &[2, 0])?;
/// data.set_sequence(0, 2, Some(7))?;
/// assert_eq!(data.set_sequence(0, 3, Some(7)), Err(TableFault::ValueOutOfRange(3)));
/// assert!(Tables::new(&data).is_ok());
/// # Ok::<(), TableFault>(())
/// ```
#[derive(Clone, Debug, PartialEq, Eq, Hash)]
#[allow(missing_docs)]
pub struct TableData {
    pub rows: usize,
    pub values: usize,
    /// Whether the edge rule is in force.
    pub edge_rule: bool,
    pub required: Vec<u8>,
    pub may_be_empty: Vec<u8>,
    pub position_given: Vec<u8>,
    pub position: Vec<i64>,
    pub order_given: Vec<u8>,
    pub order: Vec<i64>,
    pub candidate_counts: Vec<u8>,
    pub candidates: Vec<u8>,
    pub legal: Vec<u8>,
    pub capacity_given: Vec<u8>,
    pub capacity: Vec<usize>,
    pub sequence_given: Vec<u8>,
    pub sequence: Vec<usize>,
    pub edges: Vec<u8>,
}

impl TableData {
    /// All flags no, nothing given, no candidates. Of more than 128 rows or 64 values the tables are left without cells, and [`Tables::new`] refuses them.
    ///
    /// ```
    /// use turepawon::{TableData, TableFault, Tables};
    /// assert_eq!(Tables::new(&TableData::blank(129, 64)), Err(TableFault::Rows(129)));
    /// assert_eq!(Tables::new(&TableData::blank(128, usize::MAX)), Err(TableFault::Values(usize::MAX)));
    /// ```
    #[must_use]
    pub fn blank(rows: usize, values: usize) -> TableData {
        let (r, v) = if size_fits(rows, values).is_ok() { (rows, values) } else { (0, 0) };
        TableData {
            rows,
            values,
            edge_rule: false,
            required: vec![0; r],
            may_be_empty: vec![0; r],
            position_given: vec![0; r],
            position: vec![0; r],
            order_given: vec![0; r],
            order: vec![0; r],
            candidate_counts: vec![0; r],
            candidates: vec![0; MOST_CANDIDATES * r],
            legal: vec![0; r * v],
            capacity_given: vec![0; r * v],
            capacity: vec![0; r * v],
            sequence_given: vec![0; r * v],
            sequence: vec![0; r * v],
            edges: vec![0; r * r],
        }
    }

    /// Whether the row has to have a value.
    ///
    /// # Errors
    /// A row or value out of range, or a table that has too few cells; then nothing is set. So it is with every setter.
    pub fn set_required(&mut self, row: usize, required: bool) -> Result<(), TableFault> {
        let stated = self.row(row)?;
        set(Table::Required, &mut self.required, stated, row, u8::from(required))
    }

    /// Whether the row may be empty.
    ///
    /// # Errors
    /// As [`TableData::set_required`].
    pub fn set_may_be_empty(&mut self, row: usize, may: bool) -> Result<(), TableFault> {
        let stated = self.row(row)?;
        set(Table::MayBeEmpty, &mut self.may_be_empty, stated, row, u8::from(may))
    }

    /// Whether the value is legal for the row.
    ///
    /// # Errors
    /// As [`TableData::set_required`].
    pub fn set_legal(&mut self, row: usize, value: usize, legal: bool) -> Result<(), TableFault> {
        let (stated, at) = self.cell(row, value)?;
        set(Table::Legal, &mut self.legal, stated, at, u8::from(legal))
    }

    /// The key that a row has under a value, or none.
    ///
    /// # Errors
    /// As [`TableData::set_required`].
    pub fn set_capacity(&mut self, row: usize, value: usize, key: Option<usize>) -> Result<(), TableFault> {
        let (stated, at) = self.cell(row, value)?;
        holds(Table::Capacity, &self.capacity, stated, at)?;
        set(Table::CapacityGiven, &mut self.capacity_given, stated, at, u8::from(key.is_some()))?;
        set(Table::Capacity, &mut self.capacity, stated, at, key.unwrap_or(0))
    }

    /// The sequence that a row has under a value, or none.
    ///
    /// # Errors
    /// As [`TableData::set_required`].
    pub fn set_sequence(&mut self, row: usize, value: usize, sequence: Option<usize>) -> Result<(), TableFault> {
        let (stated, at) = self.cell(row, value)?;
        holds(Table::Sequence, &self.sequence, stated, at)?;
        set(Table::SequenceGiven, &mut self.sequence_given, stated, at, u8::from(sequence.is_some()))?;
        set(Table::Sequence, &mut self.sequence, stated, at, sequence.unwrap_or(0))
    }

    /// A row's position, or none.
    ///
    /// # Errors
    /// As [`TableData::set_required`].
    pub fn set_position(&mut self, row: usize, position: Option<i64>) -> Result<(), TableFault> {
        let stated = self.row(row)?;
        holds(Table::Position, &self.position, stated, row)?;
        set(Table::PositionGiven, &mut self.position_given, stated, row, u8::from(position.is_some()))?;
        set(Table::Position, &mut self.position, stated, row, position.unwrap_or(0))
    }

    /// A row's order key, or none.
    ///
    /// # Errors
    /// As [`TableData::set_required`].
    pub fn set_order(&mut self, row: usize, order: Option<i64>) -> Result<(), TableFault> {
        let stated = self.row(row)?;
        holds(Table::Order, &self.order, stated, row)?;
        set(Table::OrderGiven, &mut self.order_given, stated, row, u8::from(order.is_some()))?;
        set(Table::Order, &mut self.order, stated, row, order.unwrap_or(0))
    }

    /// A row's candidates, in order: at most 64. That each is a value is seen by [`Tables::new`].
    ///
    /// # Errors
    /// As [`TableData::set_required`]; and more than 64 candidates.
    pub fn set_candidates(&mut self, row: usize, values: &[u8]) -> Result<(), TableFault> {
        let stated = self.row(row)?;
        let count = u8::try_from(values.len()).ok().filter(|&count| usize::from(count) <= MOST_CANDIDATES);
        let count = count.ok_or(TableFault::Candidates { row })?;
        let (from, found) = (MOST_CANDIDATES.saturating_mul(row), self.candidates.len());
        let cells = self.candidates.get_mut(from..from.saturating_add(values.len()));
        let short = TableFault::Length { table: Table::Candidates, stated: MOST_CANDIDATES.saturating_mul(stated), found };
        let cells = cells.ok_or(short)?;
        set(Table::CandidateCounts, &mut self.candidate_counts, stated, row, count)?;
        cells.copy_from_slice(values);
        Ok(())
    }

    /// Whether `right` may follow `left` at one driver.
    ///
    /// # Errors
    /// As [`TableData::set_required`].
    pub fn set_edge(&mut self, left: usize, right: usize, allowed: bool) -> Result<(), TableFault> {
        let rows = self.row(left)?;
        self.row(right)?;
        let at = left.saturating_mul(rows).saturating_add(right);
        set(Table::Edges, &mut self.edges, rows.saturating_mul(rows), at, u8::from(allowed))
    }

    /// How many rows are stated, where the row is one of them.
    fn row(&self, row: usize) -> Result<usize, TableFault> {
        if row < self.rows {
            Ok(self.rows)
        } else {
            Err(TableFault::RowOutOfRange(row))
        }
    }

    /// How many cells of rows and values are stated, and which one is meant.
    fn cell(&self, row: usize, value: usize) -> Result<(usize, usize), TableFault> {
        let rows = self.row(row)?;
        if value < self.values {
            Ok((rows.saturating_mul(self.values), row.saturating_mul(self.values).saturating_add(value)))
        } else {
            Err(TableFault::ValueOutOfRange(value))
        }
    }
}

/// Whether a table has the cell.
fn holds<T>(table: Table, cells: &[T], stated: usize, at: usize) -> Result<(), TableFault> {
    if at < cells.len() {
        Ok(())
    } else {
        Err(TableFault::Length { table, stated, found: cells.len() })
    }
}

fn set<T>(table: Table, cells: &mut [T], stated: usize, at: usize, cell: T) -> Result<(), TableFault> {
    holds(table, cells, stated, at)?;
    cells[at] = cell;
    Ok(())
}

/// One of the fourteen.
#[derive(Clone, Copy, Debug, PartialEq, Eq, Hash)]
#[non_exhaustive]
#[allow(missing_docs)]
pub enum Table {
    Required,
    MayBeEmpty,
    PositionGiven,
    Position,
    OrderGiven,
    Order,
    CandidateCounts,
    Candidates,
    Legal,
    CapacityGiven,
    Capacity,
    SequenceGiven,
    Sequence,
    Edges,
}

/// What is wrong with table data.
#[derive(Clone, Copy, Debug, PartialEq, Eq, Hash)]
#[non_exhaustive]
#[allow(missing_docs)]
pub enum TableFault {
    /// Over 128 rows.
    Rows(usize),
    /// Over 64 values.
    Values(usize),
    /// A table that has not the stated length.
    Length { table: Table, stated: usize, found: usize },
    /// A row that counts over 64 candidates, or one that is no value.
    Candidates { row: usize },
    /// Something was to be set of a row that there is not.
    RowOutOfRange(usize),
    /// Something was to be set of a value that there is not.
    ValueOutOfRange(usize),
}

impl TableFault {
    /// The engine's refusal for it. What is set out of range would make a table of another length.
    #[must_use]
    pub const fn refusal(&self) -> Refusal {
        match self {
            TableFault::Candidates { .. } => Refusal::Candidates,
            _ => Refusal::Size,
        }
    }
}

impl fmt::Display for TableFault {
    fn fmt(&self, f: &mut fmt::Formatter<'_>) -> fmt::Result {
        match self {
            TableFault::Rows(rows) => write!(f, "{rows} rows, and at most {MOST_ROWS} are taken"),
            TableFault::Values(values) => write!(f, "{values} values, and at most {MOST_VALUES} are taken"),
            TableFault::Length { table, stated, found } => write!(f, "table {table:?} has {found} cells, and {stated} are stated"),
            TableFault::Candidates { row } => write!(f, "row {row} counts over {MOST_CANDIDATES} candidates, or one that is no value"),
            TableFault::RowOutOfRange(row) => write!(f, "there is no row {row}"),
            TableFault::ValueOutOfRange(value) => write!(f, "there is no value {value}"),
        }
    }
}

impl std::error::Error for TableFault {}

/// Where a table starts, by rows and values.
type Start = fn(usize, usize) -> usize;

/// Tables that the engine takes: checked one by one, and packed.
#[derive(Clone, Debug, PartialEq, Eq, Hash)]
pub struct Tables {
    shape: raw::Shape,
    marks: Vec<u8>,
    keys: Vec<usize>,
    ranks: Vec<i64>,
}

impl Tables {
    /// Checks each of the fourteen tables by itself, then packs them. The engine sees only sums of lengths, so this is where a short table beside a long one is found.
    ///
    /// ```
    /// use turepawon::{Table, TableData, TableFault, Tables};
    /// let mut data = TableData::blank(2, 1);
    /// data.required.pop();
    /// data.may_be_empty.push(0);
    /// let fault = Tables::new(&data).unwrap_err();
    /// assert_eq!(fault, TableFault::Length { table: Table::Required, stated: 2, found: 1 });
    /// ```
    ///
    /// # Errors
    /// More than 128 rows or 64 values, a table that has not its length, a row that counts over 64 candidates or one that is no value.
    pub fn new(data: &TableData) -> Result<Tables, TableFault> {
        size_fits(data.rows, data.values)?;
        lengths_fit(data)?;
        candidates_fit(data)?;
        Ok(Tables::packed(data))
    }

    /// Flags as bools, set one by one.
    #[must_use]
    pub fn builder(rows: usize, values: usize) -> TableBuilder {
        TableBuilder::new(rows, values)
    }

    /// Each table at its start: the tables have their lengths.
    fn packed(data: &TableData) -> Tables {
        let (rows, values) = (data.rows, data.values);
        let mut marks = vec![0; layout::marks_length(rows, values)];
        let parts: [(Start, &[u8]); 10] = [
            (layout::required_start, &data.required),
            (layout::may_be_empty_start, &data.may_be_empty),
            (layout::position_given_start, &data.position_given),
            (layout::order_given_start, &data.order_given),
            (layout::candidate_counts_start, &data.candidate_counts),
            (layout::candidates_start, &data.candidates),
            (layout::legal_start, &data.legal),
            (layout::capacity_given_start, &data.capacity_given),
            (layout::sequence_given_start, &data.sequence_given),
            (layout::edges_start, &data.edges),
        ];
        for (start, part) in parts {
            put(&mut marks, start(rows, values), part);
        }
        let mut keys = vec![0; layout::keys_length(rows, values)];
        put(&mut keys, layout::capacity_start(rows, values), &data.capacity);
        put(&mut keys, layout::sequence_start(rows, values), &data.sequence);
        let mut ranks = vec![0; layout::ranks_length(rows)];
        put(&mut ranks, layout::position_start(rows), &data.position);
        put(&mut ranks, layout::order_start(rows), &data.order);
        Tables { shape: raw::Shape { rows, values, edge_rule: u8::from(data.edge_rule) }, marks, keys, ranks }
    }

    /// How many rows there are.
    #[must_use]
    pub const fn rows(&self) -> usize {
        self.shape.rows
    }

    /// How many values there are.
    #[must_use]
    pub const fn values(&self) -> usize {
        self.shape.values
    }

    /// The packed slices, as the exports take them.
    #[must_use]
    pub fn lent(&self) -> raw::Lent<'_> {
        raw::Lent { shape: self.shape, marks: &self.marks, keys: &self.keys, ranks: &self.ranks }
    }

    /// Whether the value is legal for the row; not, where one of them is out of range.
    #[must_use]
    pub fn value_is_legal(&self, row: usize, value: usize) -> bool {
        self.flag(layout::legal_start, row, value)
    }

    /// The capacity key that the row has under the value.
    #[must_use]
    pub fn capacity_key(&self, row: usize, value: usize) -> Option<usize> {
        self.flag(layout::capacity_given_start, row, value).then_some(())?;
        self.key(layout::capacity_start, row, value)
    }

    /// The sequence key that the row has under the value.
    #[must_use]
    pub fn sequence_key(&self, row: usize, value: usize) -> Option<usize> {
        self.flag(layout::sequence_given_start, row, value).then_some(())?;
        self.key(layout::sequence_start, row, value)
    }

    fn flag(&self, start: Start, row: usize, value: usize) -> bool {
        let (rows, values) = (self.rows(), self.values());
        row < rows && value < values && self.marks[start(rows, values) + row * values + value] != 0
    }

    fn key(&self, start: Start, row: usize, value: usize) -> Option<usize> {
        let (rows, values) = (self.rows(), self.values());
        self.keys.get(start(rows, values) + row * values + value).copied()
    }
}

fn put<T: Copy>(slice: &mut [T], start: usize, part: &[T]) {
    slice[start..start + part.len()].copy_from_slice(part);
}

pub(crate) fn size_fits(rows: usize, values: usize) -> Result<(), TableFault> {
    if rows > MOST_ROWS {
        Err(TableFault::Rows(rows))
    } else if values > MOST_VALUES {
        Err(TableFault::Values(values))
    } else {
        Ok(())
    }
}

fn lengths_fit(data: &TableData) -> Result<(), TableFault> {
    let (rows, cells) = (data.rows, data.rows * data.values);
    let fourteen = [
        (Table::Required, rows, data.required.len()),
        (Table::MayBeEmpty, rows, data.may_be_empty.len()),
        (Table::PositionGiven, rows, data.position_given.len()),
        (Table::Position, rows, data.position.len()),
        (Table::OrderGiven, rows, data.order_given.len()),
        (Table::Order, rows, data.order.len()),
        (Table::CandidateCounts, rows, data.candidate_counts.len()),
        (Table::Candidates, MOST_CANDIDATES * rows, data.candidates.len()),
        (Table::Legal, cells, data.legal.len()),
        (Table::CapacityGiven, cells, data.capacity_given.len()),
        (Table::Capacity, cells, data.capacity.len()),
        (Table::SequenceGiven, cells, data.sequence_given.len()),
        (Table::Sequence, cells, data.sequence.len()),
        (Table::Edges, rows * rows, data.edges.len()),
    ];
    match fourteen.into_iter().find(|(_, stated, found)| stated != found) {
        Some((table, stated, found)) => Err(TableFault::Length { table, stated, found }),
        None => Ok(()),
    }
}

fn candidates_fit(data: &TableData) -> Result<(), TableFault> {
    let fits = |row: usize| {
        let count = usize::from(data.candidate_counts[row]);
        let from = MOST_CANDIDATES * row;
        count <= MOST_CANDIDATES && data.candidates[from..from + count].iter().all(|&v| usize::from(v) < data.values)
    };
    match (0..data.rows).find(|&row| !fits(row)) {
        Some(row) => Err(TableFault::Candidates { row }),
        None => Ok(()),
    }
}
