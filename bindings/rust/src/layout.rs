//! Where each table starts in the packed slices, and how long each slice is: tables of one cell type stand one behind the other. Whoever keeps packed slices asks here, and writes no number of its own.
//!
//! A table of one cell a row is read at the row, one of a cell a row and value at `row * values + value`, edges at `left * rows + right`, candidates at `row * 64 + place`. Nothing here overflows: what is too large for a board stays too large.
//!
//! ```
//! use turepawon::layout;
//! assert_eq!(layout::marks_length(4, 3), 4 * 69 + 3 * 12 + 16);
//! assert_eq!(layout::legal_start(4, 3), 4 * 69);
//! assert_eq!(layout::keys_length(usize::MAX, 3), usize::MAX);
//! ```

/// At most so many rows (duties).
pub const MOST_ROWS: usize = 128;
/// At most so many values (drivers).
pub const MOST_VALUES: usize = 64;
/// At most so many candidates a row.
pub const MOST_CANDIDATES: usize = 64;
/// At most so deep a search.
pub const MOST_DEPTH: usize = 8;
/// At most so many rows in an order or a window.
pub const MOST_IN_ORDER: usize = 128;
/// The last day that a calendar can have, 9999-12-31, counted from 1970-01-01.
pub const LAST_DAY: usize = 2_932_896;
/// The bytes of a calendar's stamp.
pub const STAMP_LENGTH: usize = 16;
/// At most so many bytes in a calendar: 63 and 15 around an event for each of 128 rows, of 125 bytes and the row's digits twice.
pub const CALENDAR_ROOM: usize = 16_626;

/// The place behind a table of so many parts of so many cells.
const fn behind(start: usize, parts: usize, cells: usize) -> usize {
    start.saturating_add(parts.saturating_mul(cells))
}

/// Marks: whether each row is required.
#[must_use]
pub const fn required_start(_rows: usize, _values: usize) -> usize {
    0
}

/// Marks: whether each row may be empty.
#[must_use]
pub const fn may_be_empty_start(rows: usize, values: usize) -> usize {
    behind(required_start(rows, values), rows, 1)
}

/// Marks: whether each row has a position.
#[must_use]
pub const fn position_given_start(rows: usize, values: usize) -> usize {
    behind(may_be_empty_start(rows, values), rows, 1)
}

/// Marks: whether each row has an order key.
#[must_use]
pub const fn order_given_start(rows: usize, values: usize) -> usize {
    behind(position_given_start(rows, values), rows, 1)
}

/// Marks: how many candidates each row has.
#[must_use]
pub const fn candidate_counts_start(rows: usize, values: usize) -> usize {
    behind(order_given_start(rows, values), rows, 1)
}

/// Marks: the candidates, 64 cells a row.
#[must_use]
pub const fn candidates_start(rows: usize, values: usize) -> usize {
    behind(candidate_counts_start(rows, values), rows, 1)
}

/// Marks: whether each value is legal for each row.
#[must_use]
pub const fn legal_start(rows: usize, values: usize) -> usize {
    behind(candidates_start(rows, values), rows, MOST_CANDIDATES)
}

/// Marks: whether each row has a capacity key under each value.
#[must_use]
pub const fn capacity_given_start(rows: usize, values: usize) -> usize {
    behind(legal_start(rows, values), rows, values)
}

/// Marks: whether each row has a sequence key under each value.
#[must_use]
pub const fn sequence_given_start(rows: usize, values: usize) -> usize {
    behind(capacity_given_start(rows, values), rows, values)
}

/// Marks: whether one row may follow another.
#[must_use]
pub const fn edges_start(rows: usize, values: usize) -> usize {
    behind(sequence_given_start(rows, values), rows, values)
}

/// Cells of the marks, which are bytes.
#[must_use]
pub const fn marks_length(rows: usize, values: usize) -> usize {
    behind(edges_start(rows, values), rows, rows)
}

/// Keys: the capacity keys.
#[must_use]
pub const fn capacity_start(_rows: usize, _values: usize) -> usize {
    0
}

/// Keys: the sequence keys.
#[must_use]
pub const fn sequence_start(rows: usize, values: usize) -> usize {
    behind(capacity_start(rows, values), rows, values)
}

/// Cells of the keys.
#[must_use]
pub const fn keys_length(rows: usize, values: usize) -> usize {
    behind(sequence_start(rows, values), rows, values)
}

/// Ranks: the positions.
#[must_use]
pub const fn position_start(_rows: usize) -> usize {
    0
}

/// Ranks: the order keys.
#[must_use]
pub const fn order_start(rows: usize) -> usize {
    behind(position_start(rows), rows, 1)
}

/// Cells of the ranks, which are signed.
#[must_use]
pub const fn ranks_length(rows: usize) -> usize {
    behind(order_start(rows), rows, 1)
}

/// Records of the index: what each row holds.
#[must_use]
pub const fn held_start(_rows: usize) -> usize {
    0
}

/// Records: whether each row has a capacity key under what it holds.
#[must_use]
pub const fn held_capacity_given_start(rows: usize) -> usize {
    behind(held_start(rows), rows, 1)
}

/// Records: that key, or 0.
#[must_use]
pub const fn held_capacity_start(rows: usize) -> usize {
    behind(held_capacity_given_start(rows), rows, 1)
}

/// Records: whether each row has a sequence key under what it holds.
#[must_use]
pub const fn held_sequence_given_start(rows: usize) -> usize {
    behind(held_capacity_start(rows), rows, 1)
}

/// Records: that key, or 0.
#[must_use]
pub const fn held_sequence_start(rows: usize) -> usize {
    behind(held_sequence_given_start(rows), rows, 1)
}

/// Cells of the index's records.
#[must_use]
pub const fn records_length(rows: usize) -> usize {
    behind(held_sequence_start(rows), rows, 1)
}

/// Members of the index: the rows with a capacity key, by that key. As each part, it is a count, so many rows in order, and zeros.
#[must_use]
pub const fn by_capacity_start(_rows: usize) -> usize {
    0
}

/// Members: the rows with a value, by that value.
#[must_use]
pub const fn by_value_start(rows: usize) -> usize {
    behind(by_capacity_start(rows), rows, 1).saturating_add(1)
}

/// Members: the rows with a sequence key, by value and sequence.
#[must_use]
pub const fn by_sequence_start(rows: usize) -> usize {
    behind(by_value_start(rows), rows, 1).saturating_add(1)
}

/// Cells of the index's members.
#[must_use]
pub const fn members_length(rows: usize) -> usize {
    behind(by_sequence_start(rows), rows, 1).saturating_add(1)
}
