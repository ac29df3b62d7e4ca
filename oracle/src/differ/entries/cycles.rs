//! The order of the assigned rows, the first cursor, its steps, and a whole walk.
use super::super::lent::Lent;
use super::super::library::Library;
use super::super::question::{Rooms, Seen, NUMBER_BEFORE};
use super::super::windows::Windows;
use super::{list_asked, list_expected};
use crate::tables::Edit;
use crate::{Cursor, Original};

pub fn numbers_of(at: Cursor) -> [usize; 4] {
    [at.start, at.len, at.variant, at.longest]
}

pub fn cursor_of(numbers: &[usize]) -> Cursor {
    Cursor { start: numbers[0], len: numbers[1], variant: numbers[2], longest: numbers[3] }
}

pub fn order_expected(original: &Original, offset: usize, room: usize) -> Seen {
    let order = original.order(offset);
    let mut seen = Seen::before(1, [room, 0], None);
    seen.numbers[0] = order.len();
    seen.front(0, order)
}

pub fn order_asked(library: &dyn Library, lent: &Lent, offset: usize, room: usize) -> Seen {
    list_asked([room, 0], [], |given, [], _| library.order(lent, offset, given.rows, given.count))
}

pub fn new_cursor_expected(windows: Windows, count: usize, size: usize) -> Seen {
    Seen { numbers: numbers_of(windows.first_of(count, size)).to_vec(), ..Seen::before(4, [0, 0], None) }
}

pub fn new_cursor_asked(write: impl FnOnce(&mut [usize; 4]) -> u8) -> Seen {
    let mut seen = Seen::before(4, [0, 0], None);
    let mut cursor = [NUMBER_BEFORE; 4];
    seen.code = write(&mut cursor);
    seen.numbers = cursor.to_vec();
    seen
}

/// What a step leaves, of either kind of window.
pub fn stepped(list: Option<&[Edit]>, next: Cursor, rooms: Rooms) -> Seen {
    let mut seen = list_expected(Seen::before(1, rooms, None), list);
    seen.numbers.extend(numbers_of(next));
    seen
}

/// Numbers: the list's length (only with a move), then the cursor as it stands afterwards.
pub fn step_expected(original: &mut Original, order: &[usize], at: Cursor, rooms: Rooms) -> Seen {
    let (list, next) = original.step(order, at);
    stepped(list.as_deref(), next, rooms)
}

/// A refused step leaves the cursor as it was given.
pub fn step_refused(at: Cursor, rooms: Rooms) -> Seen {
    let mut seen = Seen::before(1, rooms, None);
    seen.numbers.extend(numbers_of(at));
    seen
}

pub fn step_asked(library: &dyn Library, lent: &Lent, order: &[usize], at: Cursor, rooms: Rooms) -> Seen {
    list_asked(rooms, numbers_of(at), |given, cursor, moved| {
        let mut lent_cursor = cursor_of(cursor);
        let code = library.step(lent, order, &mut lent_cursor, given, moved);
        *cursor = numbers_of(lent_cursor);
        code
    })
}

/// A cursor as it is lent, between guard cells.
#[repr(C)]
struct LentCursor {
    before: [usize; 4],
    cursor: turepawon::Cursor,
    behind: [usize; 4],
}

impl LentCursor {
    fn new(at: Cursor) -> LentCursor {
        let Cursor { start, len: length, variant, longest } = at;
        LentCursor { before: [NUMBER_BEFORE; 4], cursor: turepawon::Cursor { start, length, variant, longest }, behind: [NUMBER_BEFORE; 4] }
    }
    fn numbers(&self) -> [usize; 4] {
        [self.cursor.start, self.cursor.length, self.cursor.variant, self.cursor.longest]
    }
    fn spilled(&self) -> bool {
        self.before != [NUMBER_BEFORE; 4] || self.behind != [NUMBER_BEFORE; 4]
    }
}

/// The same step of a cursor that is lent: all four of its numbers are seen.
pub fn step_at_asked(library: &dyn Library, lent: &Lent, order: &[usize], at: Cursor, rooms: Rooms) -> Seen {
    let mut standing = LentCursor::new(at);
    let mut seen = list_asked(rooms, numbers_of(at), |given, cursor, moved| {
        let code = library.step_at(&mut standing.cursor, lent, order, given, moved);
        *cursor = standing.numbers();
        code
    });
    seen.spilled |= standing.spilled();
    seen
}

/// The moves of a walk, each with the cursor behind it, and Done, which repeats.
pub fn walked(lent: &Lent, moves: Vec<(Vec<Edit>, Cursor)>, done: Cursor) -> Vec<Seen> {
    let rooms = [lent.rows, lent.rows];
    let mut seen: Vec<_> = moves.into_iter().map(|(list, next)| stepped(Some(&list), next, rooms)).collect();
    seen.extend([stepped(None, done, rooms), stepped(None, done, rooms)]);
    seen
}

/// Every step of the original's own walk.
pub fn walk_expected(lent: &Lent, original: &mut Original, offset: usize, size: usize) -> Vec<Seen> {
    let (first, order) = original.first_cursor(offset, size);
    let moves = original.walk(offset, size);
    let last = moves.last().map_or(first, |(_, behind)| *behind);
    let (none, done) = original.step(&order, last);
    assert!(none.is_none());
    walked(lent, moves, done)
}

/// Order, first cursor and steps by the library alone, to Done and once more; and the order that was walked. No walk has more steps than it has tries.
pub fn steps_asked(
    library: &dyn Library,
    lent: &Lent,
    offset: usize,
    first: impl FnOnce(usize) -> Seen,
    step: impl Fn(&[usize], Cursor) -> Seen,
) -> (Vec<Seen>, Vec<usize>) {
    let ordered = order_asked(library, lent, offset, lent.rows);
    if ordered.code != 0 {
        return (vec![ordered], Vec::new());
    }
    let order = &ordered.outputs[0][..ordered.numbers[0].min(lent.rows)];
    let mut at = cursor_of(&first(order.len()).numbers);
    let mut seen = Vec::new();
    let mut done = 0;
    while done < 2 && seen.len() < 40_000 {
        let one = step(order, at);
        done += usize::from(one.flag != 1);
        at = cursor_of(&one.numbers[1..]);
        seen.push(one);
    }
    (seen, order.to_vec())
}

pub fn walk_asked(library: &dyn Library, lent: &Lent, offset: usize, size: usize) -> Vec<Seen> {
    let first = |count| new_cursor_asked(|cursor| library.new_cursor(count, size, cursor));
    let step = |order: &[usize], at| step_asked(library, lent, order, at, [lent.rows, lent.rows]);
    steps_asked(library, lent, offset, first, step).0
}
