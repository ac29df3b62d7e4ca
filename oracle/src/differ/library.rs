//! What is judged: the exports, as a trait, so that tests can put a wrong library in their place.
use super::entries::cycles::{cursor_of, numbers_of};
use super::lent::Lent;
use super::question::Lists;
use crate::{Cursor, SearchRequest};
use turepawon::raw::{self, EditRecord};

/// A list that is given back: its two outputs, and its length.
pub struct Given<'a> {
    pub rows: &'a mut [usize],
    pub values: &'a mut [usize],
    pub count: &'a mut usize,
}

/// The moves of a walk in one call: their edits in two outputs, how many each has in the third, and both numbers.
pub struct Moves<'a> {
    pub rows: &'a mut [usize],
    pub values: &'a mut [usize],
    pub lengths: &'a mut [usize],
    pub moves: &'a mut usize,
    pub edits: &'a mut usize,
}

pub trait Library {
    fn tables_refusal(&self, lent: &Lent) -> u8;
    fn admit(&self, lent: &Lent) -> u8;
    fn build_index(&self, lent: &Lent, records: &mut [usize], members: &mut [usize]) -> u8;
    fn refresh_rows(&self, lent: &Lent, records: &mut [usize], members: &mut [usize], list: &Lists) -> u8;
    fn feasible(&self, lent: &Lent, list: &Lists, answer: &mut u8) -> u8;
    /// The final test and, where its answer is yes, the refresh, of the index that stands in the two slices.
    fn apply(&self, lent: &Lent, records: &mut [usize], members: &mut [usize], list: &Lists, answer: &mut u8) -> u8;
    fn reinsert(&self, lent: &Lent, list: &Lists, row: usize, value: usize, answer: &mut u8) -> u8;
    fn sound(&self, lent: &Lent, answer: &mut u8) -> u8;
    fn conflicts(&self, lent: &Lent, out_keys: &mut [usize], out_rows: &mut [usize], count: &mut usize) -> u8;

    /// `found` becomes 1 with a move and 0 without; `asks` is written in both cases, the list's length only with a move.
    fn search(&self, lent: &Lent, request: &SearchRequest, given: Given, asks: &mut usize, found: &mut u8) -> u8;
    fn ceiling(&self, candidates: usize, depth: usize, ceiling: &mut usize) -> u8;
    fn order(&self, lent: &Lent, offset: usize, out_rows: &mut [usize], count: &mut usize) -> u8;
    /// `cursor` is start, length, variant, longest.
    fn new_cursor(&self, count: usize, size: usize, cursor: &mut [usize; 4]) -> u8;
    /// `cursor` is moved on; `moved` becomes 1 with a move and 0 at Done.
    fn step(&self, lent: &Lent, order: &[usize], cursor: &mut Cursor, given: Given, moved: &mut u8) -> u8;
    /// `cursor` is moved on over all moves that have room; `done` becomes 1 where none is left and 0 where one is.
    fn onward(&self, lent: &Lent, order: &[usize], cursor: &mut Cursor, given: Moves, done: &mut u8) -> u8;
    /// The final test of a list that is lent as records.
    fn feasible_records(&self, edits: &[EditRecord], lent: &Lent, answer: &mut u8) -> u8;
    /// The step of a cursor that is lent, and moved on where it stands.
    fn step_at(&self, cursor: &mut turepawon::Cursor, lent: &Lent, order: &[usize], given: Given, moved: &mut u8) -> u8;
    /// `listed` becomes 1 with a list and 0 for none.
    fn ejection(&self, lent: &Lent, window: &[usize], attempt: usize, limit: Option<usize>, given: Given, listed: &mut u8) -> u8;
    /// As `new_cursor`, for ejection windows; the third number is the attempt reached.
    fn new_ejection_cursor(&self, count: usize, size: usize, cursor: &mut [usize; 4]) -> u8;
    /// As `step`, over ejection windows.
    fn ejection_step(&self, lent: &Lent, order: &[usize], cursor: &mut Cursor, limit: Option<usize>, given: Given, moved: &mut u8) -> u8;
    fn driver_calendar(&self, lent: &Lent, driver: usize, stamp: &[u8], out: &mut [u8], written: &mut usize) -> u8;
    /// The days are given back as values are.
    fn read_calendar(&self, bytes: &[u8], given: Given) -> u8;
}

fn tables(lent: &Lent) -> raw::Lent<'_> {
    raw::Lent {
        shape: raw::Shape { rows: lent.rows, values: lent.values, edge_rule: lent.edge_rule },
        marks: &lent.marks,
        keys: &lent.keys,
        ranks: &lent.ranks,
    }
}

/// The static library.
pub struct Linked;

impl Library for Linked {
    fn tables_refusal(&self, lent: &Lent) -> u8 {
        raw::tables_refusal(tables(lent))
    }
    fn admit(&self, lent: &Lent) -> u8 {
        raw::admit(tables(lent), &lent.records, &lent.members)
    }
    fn build_index(&self, lent: &Lent, records: &mut [usize], members: &mut [usize]) -> u8 {
        raw::build_index(tables(lent), &lent.roster, records, members)
    }
    fn refresh_rows(&self, lent: &Lent, records: &mut [usize], members: &mut [usize], list: &Lists) -> u8 {
        raw::refresh_rows(tables(lent), records, members, &list.rows, &list.values)
    }
    fn feasible(&self, lent: &Lent, list: &Lists, answer: &mut u8) -> u8 {
        raw::assignment_feasible_after_edits(tables(lent), &lent.records, &lent.members, &list.rows, &list.values, answer)
    }
    fn apply(&self, lent: &Lent, records: &mut [usize], members: &mut [usize], list: &Lists, answer: &mut u8) -> u8 {
        raw::assignment_apply_edits(tables(lent), records, members, &list.rows, &list.values, answer)
    }
    fn reinsert(&self, lent: &Lent, list: &Lists, row: usize, value: usize, answer: &mut u8) -> u8 {
        raw::reinsert_value_allowed(tables(lent), &lent.records, &lent.members, &list.rows, &list.values, row, value, answer)
    }
    fn sound(&self, lent: &Lent, answer: &mut u8) -> u8 {
        raw::roster_sound(tables(lent), &lent.records, &lent.members, answer)
    }
    fn conflicts(&self, lent: &Lent, out_keys: &mut [usize], out_rows: &mut [usize], count: &mut usize) -> u8 {
        raw::capacity_conflicts(tables(lent), &lent.records, &lent.members, out_keys, out_rows, count)
    }
    fn order(&self, lent: &Lent, offset: usize, out_rows: &mut [usize], count: &mut usize) -> u8 {
        raw::assigned_entities_by_position(tables(lent), &lent.records, &lent.members, offset, out_rows, count)
    }
    fn new_cursor(&self, count: usize, size: usize, cursor: &mut [usize; 4]) -> u8 {
        raw::new_cursor(count, size, cursor)
    }
    fn step(&self, lent: &Lent, order: &[usize], cursor: &mut Cursor, given: Given, moved: &mut u8) -> u8 {
        let mut cells = numbers_of(*cursor);
        let (records, members) = (&lent.records, &lent.members);
        let code =
            raw::next_augmenting_rematch(tables(lent), records, members, order, &mut cells, given.rows, given.values, moved, given.count);
        *cursor = cursor_of(&cells);
        code
    }
    fn onward(&self, lent: &Lent, order: &[usize], cursor: &mut Cursor, given: Moves, done: &mut u8) -> u8 {
        let mut cells = numbers_of(*cursor);
        let Moves { rows, values, lengths, moves, edits } = given;
        let (records, members) = (&lent.records, &lent.members);
        let code =
            raw::walk_augmenting_rematch(tables(lent), records, members, order, &mut cells, rows, values, lengths, done, moves, edits);
        *cursor = cursor_of(&cells);
        code
    }
    fn feasible_records(&self, edits: &[EditRecord], lent: &Lent, answer: &mut u8) -> u8 {
        raw::assignment_feasible_after_edit_records(edits, tables(lent), &lent.records, &lent.members, answer)
    }
    fn step_at(&self, cursor: &mut turepawon::Cursor, lent: &Lent, order: &[usize], given: Given, moved: &mut u8) -> u8 {
        let (records, members) = (&lent.records, &lent.members);
        raw::next_augmenting_rematch_at(cursor, tables(lent), records, members, order, given.rows, given.values, moved, given.count)
    }
    fn ejection(&self, lent: &Lent, window: &[usize], attempt: usize, limit: Option<usize>, given: Given, listed: &mut u8) -> u8 {
        let limit = limit.unwrap_or(usize::MAX);
        let (records, members) = (&lent.records, &lent.members);
        raw::ejection_reinsert_edits(tables(lent), records, members, window, attempt, limit, given.rows, given.values, listed, given.count)
    }
    fn new_ejection_cursor(&self, count: usize, size: usize, cursor: &mut [usize; 4]) -> u8 {
        raw::new_ejection_cursor(count, size, cursor)
    }
    fn ejection_step(&self, lent: &Lent, order: &[usize], cursor: &mut Cursor, limit: Option<usize>, given: Given, moved: &mut u8) -> u8 {
        let mut cells = numbers_of(*cursor);
        let limit = limit.unwrap_or(usize::MAX);
        let Given { rows, values, count } = given;
        let (records, members) = (&lent.records, &lent.members);
        let code = raw::next_ejection_reinsert(tables(lent), records, members, order, &mut cells, limit, rows, values, moved, count);
        *cursor = cursor_of(&cells);
        code
    }
    fn search(&self, lent: &Lent, request: &SearchRequest, given: Given, asks: &mut usize, found: &mut u8) -> u8 {
        let asked = raw::Request {
            row: request.row,
            value: request.value,
            depth: request.depth,
            displacement: u8::from(request.displacement),
            limit: request.candidate_limit.unwrap_or(usize::MAX),
            budget: request.budget,
        };
        let (records, members) = (&lent.records, &lent.members);
        raw::assignment_move_for_entity_value(tables(lent), records, members, asked, given.rows, given.values, found, asks, given.count)
    }
    fn ceiling(&self, candidates: usize, depth: usize, ceiling: &mut usize) -> u8 {
        raw::ask_ceiling(candidates, depth, ceiling)
    }
    fn driver_calendar(&self, lent: &Lent, driver: usize, stamp: &[u8], out: &mut [u8], written: &mut usize) -> u8 {
        raw::driver_calendar(tables(lent), &lent.records, &lent.members, driver, stamp, out, written)
    }
    fn read_calendar(&self, bytes: &[u8], given: Given) -> u8 {
        raw::read_calendar(bytes, given.rows, given.values, given.count)
    }
}
