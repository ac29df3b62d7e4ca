//! The walk over ejection windows: a step, and a walk to Done. The rule's order is not the original's: what is expected is put together of its parts, for each try in order its `ejection_reinsert_edits`, and then its final test.
//! The original has a stepping of its own, which is asked beside it. From one cursor, at one limit, it gives:
//! - tries of the same starts and lengths in the same order, but of a window the attempts 0 to max(depth, 1) - 1, where the rule has those below its length;
//! - nothing of a window without a required row;
//! - no list of a single edit.
//!
//! So of the two walks these are the same, with the cursors behind them and at the end: of the rule's, the moves that `own_too` keeps; of the original's, those whose attempt is below the length, which at depth 0, 1 and 2 all are.
use super::super::lent::Lent;
use super::super::library::Library;
use super::super::question::{Rooms, Seen};
use super::cycles::{cursor_of, new_cursor_asked, numbers_of, stepped, steps_asked, walked};
use super::list_asked;
use crate::tables::Edit;
use crate::{Cursor, Original};

/// The tries of a walk at the cursor and behind it: each start, lengths from 2 on, attempts below the length. Each is told as a cursor right before it.
pub fn tries(count: usize, from: Cursor) -> impl Iterator<Item = Cursor> {
    let place = |at: &Cursor| (at.start, at.len, at.variant);
    let of_window = move |start: usize, len: usize| (0..len).map(move |variant| Cursor { start, len, variant, ..from });
    let of_start = move |start: usize| (2..=from.longest.min(count - start)).flat_map(move |len| of_window(start, len));
    (from.start..count).flat_map(of_start).filter(move |at| place(at) >= place(&from))
}

/// The list of a try, before the final test.
pub fn listed(original: &mut Original, order: &[usize], at: Cursor, limit: Option<usize>) -> Option<Vec<Edit>> {
    original.ejection(&order[at.start..at.start + at.len], at.variant, limit)
}

/// The first try whose list has an edit and passes, with the cursor behind it; or the cursor at the end.
pub fn next_move(original: &mut Original, order: &[usize], from: Cursor, limit: Option<usize>) -> (Option<Vec<Edit>>, Cursor) {
    for at in tries(order.len(), from) {
        let list = listed(original, order, at, limit).unwrap_or_default();
        if !list.is_empty() && original.final_test(&list) {
            return (Some(list), Cursor { variant: at.variant + 1, ..at });
        }
    }
    let end = Cursor { start: order.len(), len: 2, variant: 0, ..from };
    (None, if from.start == order.len() { from } else { end })
}

/// Every move from the cursor on, each with the cursor behind it, and the cursor at the end.
pub fn moves(original: &mut Original, order: &[usize], from: Cursor, limit: Option<usize>) -> (Vec<(Vec<Edit>, Cursor)>, Cursor) {
    let (mut at, mut moves) = (from, Vec::new());
    loop {
        let (list, next) = next_move(original, order, at, limit);
        let Some(list) = list else { return (moves, next) };
        moves.push((list, next));
        at = next;
    }
}

pub fn step_expected(original: &mut Original, order: &[usize], at: Cursor, limit: Option<usize>, rooms: Rooms) -> Seen {
    let (list, next) = next_move(original, order, at, limit);
    stepped(list.as_deref(), next, rooms)
}

pub fn step_asked(library: &dyn Library, lent: &Lent, order: &[usize], at: Cursor, limit: Option<usize>, rooms: Rooms) -> Seen {
    list_asked(rooms, numbers_of(at), |given, cursor, moved| {
        let mut lent_cursor = cursor_of(cursor);
        let code = library.ejection_step(lent, order, &mut lent_cursor, limit, given, moved);
        *cursor = numbers_of(lent_cursor);
        code
    })
}

/// Order and first cursor are those of the original's own walk.
pub fn walk_expected(lent: &Lent, original: &mut Original, offset: usize, size: usize, limit: Option<usize>) -> Vec<Seen> {
    let (first, order) = original.first_ejection_cursor(offset, size);
    let (moves, done) = moves(original, &order, first, limit);
    walked(lent, moves, done)
}

fn asked(library: &dyn Library, lent: &Lent, offset: usize, size: usize, limit: Option<usize>) -> (Vec<Seen>, Vec<usize>) {
    let first = |count| new_cursor_asked(|cursor| library.new_ejection_cursor(count, size, cursor));
    let step = |order: &[usize], at| step_asked(library, lent, order, at, limit, [lent.rows, lent.rows]);
    steps_asked(library, lent, offset, first, step)
}

pub fn walk_asked(library: &dyn Library, lent: &Lent, offset: usize, size: usize, limit: Option<usize>) -> Vec<Seen> {
    asked(library, lent, offset, size, limit).0
}

/// Whether the rule's walk has the try of a move of the original's own.
pub fn within_the_rule(behind: Cursor) -> bool {
    behind.variant <= behind.len
}

/// Whether the original's own walk at this depth gives a move of the rule's too.
pub fn own_too(edits: usize, behind: Cursor, order: &[usize], required: impl Fn(usize) -> bool, depth: usize) -> bool {
    let window = order.iter().skip(behind.start).take(behind.len);
    edits >= 2 && behind.variant <= depth.max(1) && window.copied().any(required)
}

pub fn own_expected(lent: &Lent, original: &mut Original, offset: usize, size: usize, limit: Option<usize>, depth: usize) -> Vec<Seen> {
    let (mut moves, done) = original.own_ejections(offset, size, limit, depth);
    moves.retain(|(_, behind)| within_the_rule(*behind));
    walked(lent, moves, done)
}

/// The library's walk without the moves that the original's own passes over.
pub fn own_asked(library: &dyn Library, lent: &Lent, offset: usize, size: usize, limit: Option<usize>, depth: usize) -> Vec<Seen> {
    let (mut steps, order) = asked(library, lent, offset, size, limit);
    let is_move = |seen: &Seen| (seen.code, seen.flag) == (0, 1);
    let both = |seen: &Seen| own_too(seen.numbers[0], cursor_of(&seen.numbers[1..]), &order, |row| lent.required(row), depth);
    steps.retain(|seen| !is_move(seen) || both(seen));
    steps
}
