//! The walk in one call: as many of the original's steps as there is room for, call after call from the cursor that the one before left, to Done and once more.
use super::super::lent::{number_of, Lent};
use super::super::library::{Library, Moves};
use super::super::question::{cells_before, Seen, WalkRooms, FLAG_BEFORE, NUMBER_BEFORE};
use super::cycles::{cursor_of, numbers_of};
use super::Guarded;
use crate::tables::Edit;
use crate::{Cursor, Original};

/// A move, and the cursor behind it.
type Moved = (Vec<Edit>, Cursor);

/// A call that did nothing. Numbers: edits and moves, then the cursor as it stands afterwards.
fn before(at: Cursor, rooms: WalkRooms) -> Seen {
    let mut seen = Seen::before(2, [rooms[0], rooms[1]], None);
    seen.outputs[2] = cells_before(rooms[2]);
    seen.numbers.extend(numbers_of(at));
    seen
}

/// A refused walk leaves the cursor as it was given.
pub fn refused(at: Cursor, rooms: WalkRooms) -> Seen {
    before(at, rooms)
}

/// Every step of the original to Done, and the cursor that Done leaves.
fn steps(original: &mut Original, order: &[usize], from: Cursor) -> (Vec<Moved>, Cursor) {
    let (mut at, mut moves) = (from, Vec::new());
    loop {
        let (list, next) = original.step(order, at);
        let Some(list) = list else { return (moves, next) };
        moves.push((list, next));
        at = next;
    }
}

/// How many of the moves have room: in edits both outputs, as moves the third.
fn fitting(moves: &[Moved], rooms: WalkRooms) -> usize {
    let mut edits = 0;
    let fits = |(list, _): &&Moved| {
        edits += list.len();
        edits <= rooms[0].min(rooms[1])
    };
    moves.iter().take(rooms[2]).take_while(fits).count()
}

fn written(moves: &[Moved], done: bool, at: Cursor, rooms: WalkRooms) -> Seen {
    let edits: Vec<Edit> = moves.iter().flat_map(|(list, _)| list.iter().copied()).collect();
    let mut seen = before(at, rooms).answered(done);
    seen.numbers[..2].copy_from_slice(&[edits.len(), moves.len()]);
    seen.front(0, edits.iter().map(|e| e.0)).front(1, edits.iter().map(|e| number_of(e.1))).front(2, moves.iter().map(|m| m.0.len()))
}

pub fn expected(original: &mut Original, order: &[usize], from: Cursor, rooms: WalkRooms) -> Vec<Seen> {
    let (moves, end) = steps(original, order, from);
    let (mut left, mut calls) = (moves.as_slice(), Vec::new());
    loop {
        let (now, later) = left.split_at(fitting(left, rooms));
        if later.is_empty() {
            calls.push(written(now, true, end, rooms));
            calls.push(written(&[], true, end, rooms));
            return calls;
        }
        let behind = now.last().expect("one move has room where all rows have").1;
        calls.push(written(now, false, behind, rooms));
        left = later;
    }
}

fn call(library: &dyn Library, lent: &Lent, order: &[usize], at: Cursor, rooms: WalkRooms) -> Seen {
    let [mut rows, mut values, mut lengths] = rooms.map(|room| Guarded::new(&cells_before(room)));
    let (mut cursor, mut moves, mut edits, mut flag) = (at, NUMBER_BEFORE, NUMBER_BEFORE, FLAG_BEFORE);
    let given = Moves { rows: rows.inside(), values: values.inside(), lengths: lengths.inside(), moves: &mut moves, edits: &mut edits };
    let code = library.onward(lent, order, &mut cursor, given, &mut flag);
    let mut numbers = vec![edits, moves];
    numbers.extend(numbers_of(cursor));
    let spilled = rows.spilled() || values.spilled() || lengths.spilled();
    let outputs = [rows.take(), values.take(), lengths.take()];
    Seen { code, flag, numbers, outputs, spilled, ..Seen::before(0, [0, 0], None) }
}

/// No walk has so many calls as it is stopped at here.
pub fn asked(library: &dyn Library, lent: &Lent, order: &[usize], from: Cursor, rooms: WalkRooms) -> Vec<Seen> {
    let (mut at, mut done, mut calls) = (from, 0, Vec::new());
    while done < 2 && calls.len() < 1000 {
        let seen = call(library, lent, order, at, rooms);
        done += if seen.code != 0 { 2 } else { usize::from(seen.flag == 1) };
        at = cursor_of(&seen.numbers[2..]);
        calls.push(seen);
    }
    calls
}
