//! The exports as they are: slices and numbers in, a code out. Every function here is safe: the library takes all input, refuses by number what does not fit, and a refusal changes nothing.
//! The code is 0 or a refusal's number. [`crate::Index`] is the comfortable form; this one is for callers that keep packed slices themselves.

mod linked;

use crate::Cursor;

/// How many rows (duties) and values (drivers) there are, and whether the edge rule is in force (0 is no).
#[derive(Clone, Copy, Debug, PartialEq, Eq, Hash)]
pub struct Shape {
    pub rows: usize,
    pub values: usize,
    pub edge_rule: u8,
}

/// The lent tables, packed: [`crate::layout`] says where each one stands.
#[derive(Clone, Copy, Debug, PartialEq, Eq, Hash)]
pub struct Lent<'a> {
    pub shape: Shape,
    pub marks: &'a [u8],
    pub keys: &'a [usize],
    pub ranks: &'a [i64],
}

/// An edit as the library lays it out: a row, and the value that it gets, [`crate::EMPTY`] for none.
#[repr(C)]
#[derive(Clone, Copy, Debug, PartialEq, Eq, Hash)]
pub struct EditRecord {
    pub row: usize,
    pub value: usize,
}

/// Calls an export: `lent;` stands for the shape and the three table slices (`;` alone for an export that takes none), `&s` for a slice that is read, `&mut s` for one that is written, `=x` for a plain argument. What is lent as a struct stands before the tables, in brackets.
macro_rules! call {
    ($name:ident($lent:ident; $($rest:tt)*)) => {
        call!(@tables $name [] $lent; $($rest)*)
    };
    ($name:ident([& $slice:ident] $lent:ident; $($rest:tt)*)) => {
        call!(@tables $name [$slice.as_ptr(), $slice.len()] $lent; $($rest)*)
    };
    ($name:ident([= $plain:expr] $lent:ident; $($rest:tt)*)) => {
        call!(@tables $name [$plain] $lent; $($rest)*)
    };
    (@tables $name:ident [$($first:expr),*] $lent:ident; $($rest:tt)*) => {
        call!(@more $name [
            $($first,)* $lent.shape.rows, $lent.shape.values, $lent.shape.edge_rule, $lent.marks.as_ptr(), $lent.marks.len(),
            $lent.keys.as_ptr(), $lent.keys.len(), $lent.ranks.as_ptr(), $lent.ranks.len()
        ] $($rest)*)
    };
    ($name:ident(; $($rest:tt)*)) => {
        call!(@more $name [] $($rest)*)
    };
    (@more $name:ident [$($done:expr),*] &mut $slice:ident $(, $($rest:tt)*)?) => {
        call!(@more $name [$($done,)* $slice.as_mut_ptr(), $slice.len()] $($($rest)*)?)
    };
    (@more $name:ident [$($done:expr),*] & $slice:ident $(, $($rest:tt)*)?) => {
        call!(@more $name [$($done,)* $slice.as_ptr(), $slice.len()] $($($rest)*)?)
    };
    (@more $name:ident [$($done:expr),*] = $plain:expr $(, $($rest:tt)*)?) => {
        call!(@more $name [$($done,)* $plain] $($($rest)*)?)
    };
    (@more $name:ident [$($done:expr),*]) => {
        // SAFETY: every pointer comes with its own length from a live slice; a slice that is written is borrowed as `&mut`, so nothing else overlaps it; the export is proved to stay within them for all input.
        unsafe { linked::$name($($done),*) }
    };
}

/// The number of the library's layout. A caller of this module sees first that it is [`crate::ABI`], by [`crate::check_library`].
#[must_use]
pub fn abi() -> u32 {
    call!(turepawon_abi(;))
}

/// 0, or the refusal of the tables by themselves: 1 or 2.
#[must_use]
pub fn tables_refusal(lent: Lent) -> u8 {
    call!(turepawon_tables_refusal(lent;))
}

/// 0, or the refusal of tables and index: 1, 2, 3 or 6.
#[must_use]
pub fn admit(lent: Lent, records: &[usize], members: &[usize]) -> u8 {
    call!(turepawon_admit(lent; &records, &members))
}

/// Writes the index of a roster, whatever the slices held.
#[must_use]
pub fn build_index(lent: Lent, roster: &[usize], records: &mut [usize], members: &mut [usize]) -> u8 {
    call!(turepawon_build_index(lent; &roster, &mut records, &mut members))
}

/// For loading a roster: gives every listed row the value beside it, and asks nothing. [`assignment_apply_edits`] changes a roster that is in use.
#[must_use]
pub fn refresh_rows(lent: Lent, records: &mut [usize], members: &mut [usize], list_rows: &[usize], list_values: &[usize]) -> u8 {
    call!(turepawon_refresh_rows(lent; &mut records, &mut members, &list_rows, &list_values))
}

/// Whether the list passes the final test: `answer` becomes 1 or 0.
#[must_use]
pub fn assignment_feasible_after_edits(
    lent: Lent,
    records: &[usize],
    members: &[usize],
    list_rows: &[usize],
    list_values: &[usize],
    answer: &mut u8,
) -> u8 {
    call!(turepawon_assignment_feasible_after_edits(lent; &records, &members, &list_rows, &list_values, = answer))
}

/// Whether the records pass the final test: `answer` becomes 1 or 0. They are lent as they stand, however many there are.
#[must_use]
pub fn assignment_feasible_after_edit_records(
    edits: &[EditRecord],
    lent: Lent,
    records: &[usize],
    members: &[usize],
    answer: &mut u8,
) -> u8 {
    call!(turepawon_assignment_feasible_after_edit_records([&edits] lent; &records, &members, = answer))
}

/// Tests the list and, where it passes, applies it: `answer` becomes 1, and the index that of the roster after the list; or `answer` becomes 0, and every cell is as it was.
#[must_use]
pub fn assignment_apply_edits(
    lent: Lent,
    records: &mut [usize],
    members: &mut [usize],
    list_rows: &[usize],
    list_values: &[usize],
    answer: &mut u8,
) -> u8 {
    call!(turepawon_assignment_apply_edits(lent; &mut records, &mut members, &list_rows, &list_values, = answer))
}

/// Whether the named row may take the value after the list: `answer` becomes 1 or 0.
#[must_use]
#[allow(clippy::too_many_arguments)]
pub fn reinsert_value_allowed(
    lent: Lent,
    records: &[usize],
    members: &[usize],
    list_rows: &[usize],
    list_values: &[usize],
    row: usize,
    value: usize,
    answer: &mut u8,
) -> u8 {
    call!(turepawon_reinsert_value_allowed(lent; &records, &members, &list_rows, &list_values, = row, = value, = answer))
}

/// Whether the roster is sound, every held value legal for its row included: `answer` becomes 1 or 0.
#[must_use]
pub fn roster_sound(lent: Lent, records: &[usize], members: &[usize], answer: &mut u8) -> u8 {
    call!(turepawon_roster_sound(lent; &records, &members, = answer))
}

/// Lists the holders of every conflict and their keys, one pair a holder; `count` becomes their number.
#[must_use]
pub fn capacity_conflicts(
    lent: Lent,
    records: &[usize],
    members: &[usize],
    out_keys: &mut [usize],
    out_rows: &mut [usize],
    count: &mut usize,
) -> u8 {
    call!(turepawon_capacity_conflicts(lent; &records, &members, &mut out_keys, &mut out_rows, = count))
}

/// Lists the rows that hold a value, by position, rotated to the left by the offset; `count` becomes their number.
#[must_use]
pub fn assigned_entities_by_position(
    lent: Lent,
    records: &[usize],
    members: &[usize],
    offset: usize,
    out_rows: &mut [usize],
    count: &mut usize,
) -> u8 {
    call!(turepawon_assigned_entities_by_position(lent; &records, &members, = offset, &mut out_rows, = count))
}

/// A cursor's numbers: start, length, variant, longest. Of an ejection cursor the variant is the attempt reached.
pub type CursorCells = [usize; 4];

/// Writes the rematch cursor that a walk over an order of so many rows begins with.
#[must_use]
pub fn new_cursor(count: usize, size: usize, cursor: &mut CursorCells) -> u8 {
    let [start, length, variant, longest] = cursor;
    call!(turepawon_new_cursor(; = count, = size, = start, = length, = variant, = longest))
}

/// Moves the cursor right behind the next move and gives that move back: `moved` becomes 1 and `count` the number of its edits; or the cursor goes to the end and `moved` becomes 0.
#[must_use]
#[allow(clippy::too_many_arguments)]
pub fn next_augmenting_rematch(
    lent: Lent,
    records: &[usize],
    members: &[usize],
    order: &[usize],
    cursor: &mut CursorCells,
    out_rows: &mut [usize],
    out_values: &mut [usize],
    moved: &mut u8,
    count: &mut usize,
) -> u8 {
    let [start, length, variant, longest] = cursor;
    call!(turepawon_next_augmenting_rematch(
        lent; &records, &members, &order, = start, = length, = variant, = longest, &mut out_rows, &mut out_values, = moved, = count
    ))
}

/// Moves the cursor on over as many moves as there is room for and writes them one behind the other, with the number of edits of each: `moves` and `edits` become their numbers, `done` becomes 1 where no move is left and 0 where one is.
#[must_use]
#[allow(clippy::too_many_arguments)]
pub fn walk_augmenting_rematch(
    lent: Lent,
    records: &[usize],
    members: &[usize],
    order: &[usize],
    cursor: &mut CursorCells,
    out_rows: &mut [usize],
    out_values: &mut [usize],
    out_lengths: &mut [usize],
    done: &mut u8,
    moves: &mut usize,
    edits: &mut usize,
) -> u8 {
    let [start, length, variant, longest] = cursor;
    call!(turepawon_walk_augmenting_rematch(
        lent; &records, &members, &order, = start, = length, = variant, = longest, &mut out_rows, &mut out_values, &mut out_lengths,
        = done, = moves, = edits
    ))
}

/// The step of a cursor that is lent, and moved on where it stands.
#[must_use]
#[allow(clippy::too_many_arguments)]
pub fn next_augmenting_rematch_at(
    cursor: &mut Cursor,
    lent: Lent,
    records: &[usize],
    members: &[usize],
    order: &[usize],
    out_rows: &mut [usize],
    out_values: &mut [usize],
    moved: &mut u8,
    count: &mut usize,
) -> u8 {
    call!(turepawon_next_augmenting_rematch_at(
        [= cursor] lent; &records, &members, &order, &mut out_rows, &mut out_values, = moved, = count
    ))
}

/// Lists the edits that lift the rows of a window out and put them back: `listed` becomes 1 and `count` their number; or `listed` becomes 0, where a required row finds no value. A limit of `usize::MAX` offers every candidate.
#[must_use]
#[allow(clippy::too_many_arguments)]
pub fn ejection_reinsert_edits(
    lent: Lent,
    records: &[usize],
    members: &[usize],
    window: &[usize],
    attempt: usize,
    limit: usize,
    out_rows: &mut [usize],
    out_values: &mut [usize],
    listed: &mut u8,
    count: &mut usize,
) -> u8 {
    call!(turepawon_ejection_reinsert_edits(
        lent; &records, &members, &window, = attempt, = limit, &mut out_rows, &mut out_values, = listed, = count
    ))
}

/// Writes the ejection cursor that a walk over an order of so many rows begins with.
#[must_use]
pub fn new_ejection_cursor(count: usize, size: usize, cursor: &mut CursorCells) -> u8 {
    let [start, length, variant, longest] = cursor;
    call!(turepawon_new_ejection_cursor(; = count, = size, = start, = length, = variant, = longest))
}

/// Moves the ejection cursor right behind the next try whose list has an edit and passes the final test, and gives that list back: `moved` becomes 1 and `count` the number of its edits; or the cursor goes to the end and `moved` becomes 0. A limit of `usize::MAX` offers every candidate.
#[must_use]
#[allow(clippy::too_many_arguments)]
pub fn next_ejection_reinsert(
    lent: Lent,
    records: &[usize],
    members: &[usize],
    order: &[usize],
    cursor: &mut CursorCells,
    limit: usize,
    out_rows: &mut [usize],
    out_values: &mut [usize],
    moved: &mut u8,
    count: &mut usize,
) -> u8 {
    let [start, length, variant, longest] = cursor;
    call!(turepawon_next_ejection_reinsert(
        lent; &records, &members, &order, = start, = length, = variant, = longest, = limit, &mut out_rows, &mut out_values,
        = moved, = count
    ))
}

/// What a search is to look for.
#[derive(Clone, Copy, Debug, PartialEq, Eq, Hash)]
pub struct Request {
    pub row: usize,
    pub value: usize,
    pub depth: usize,
    /// 0 is no.
    pub displacement: u8,
    /// `usize::MAX` offers every candidate.
    pub limit: usize,
    pub budget: usize,
}

/// Looks for a move: `found` becomes 1 and `count` the number of its edits, or `found` becomes 0; `asks` becomes the number of asks in both cases.
#[must_use]
#[allow(clippy::too_many_arguments)]
pub fn assignment_move_for_entity_value(
    lent: Lent,
    records: &[usize],
    members: &[usize],
    request: Request,
    out_rows: &mut [usize],
    out_values: &mut [usize],
    found: &mut u8,
    asks: &mut usize,
    count: &mut usize,
) -> u8 {
    let Request { row, value, depth, displacement, limit, budget } = request;
    call!(turepawon_assignment_move_for_entity_value(
        lent; &records, &members, = row, = value, = depth, = displacement, = limit, = budget, &mut out_rows, &mut out_values,
        = found, = asks, = count
    ))
}

/// Writes the most asks that a search can make at the depth, where no row offers more than so many candidates.
#[must_use]
pub fn ask_ceiling(candidates: usize, depth: usize, most: &mut usize) -> u8 {
    call!(turepawon_ask_ceiling(; = candidates, = depth, = most))
}

/// Writes a driver's duties as an iCalendar object; `written` becomes the number of its bytes. [`crate::layout::CALENDAR_ROOM`] bytes are room enough for any.
#[must_use]
pub fn driver_calendar(
    lent: Lent,
    records: &[usize],
    members: &[usize],
    driver: usize,
    stamp: &[u8],
    out: &mut [u8],
    written: &mut usize,
) -> u8 {
    call!(turepawon_driver_calendar(lent; &records, &members, = driver, &stamp, &mut out, = written))
}

/// Reads such an object, folded or not: the row and the day of each duty; `count` becomes their number.
#[must_use]
pub fn read_calendar(bytes: &[u8], out_rows: &mut [usize], out_days: &mut [usize], count: &mut usize) -> u8 {
    call!(turepawon_read_calendar(; &bytes, &mut out_rows, &mut out_days, = count))
}
