//! The worked examples that are not starred, on board T: searches, orders and ejections, walks; with corners and refusals of each.
use super::lists::Lists;
use crate::differ::entries::cycles::cursor_of;
use crate::differ::lent::{Lent, EMPTY};
use crate::differ::question::{Question, Rooms};
use crate::differ::windows::EJECTIONS;
use crate::tables::Tables;
use crate::{Cursor, SearchRequest};

/// Four rows, of which the first two are required, and three values, each its own capacity key; every row may hold every one, or none.
pub fn board_t() -> Tables {
    Tables {
        required: vec![1, 1, 0, 0],
        may_empty: vec![1; 4],
        candidates: vec![vec![0, 1, 2]; 4],
        legal: vec![1; 12],
        capacity: (0..12).map(|cell| Some(cell % 3)).collect(),
        ..Tables::blank(4, 3)
    }
}

pub const A: [Option<usize>; 4] = [Some(0), Some(1), None, Some(2)];
pub const B: [Option<usize>; 4] = [Some(0), Some(0), None, Some(0)];

/// Row 2 takes value 0 by depth 1, displacing, unless said.
const REQUEST: SearchRequest = SearchRequest { row: 2, value: 0, depth: 1, displacement: true, candidate_limit: None, budget: 100 };

fn requests() -> [(&'static str, SearchRequest); 13] {
    [
        ("row 2 value 0, depth 1, displacing", REQUEST),
        ("the same, budget 4", SearchRequest { budget: 4, ..REQUEST }),
        ("the same, budget 5", SearchRequest { budget: 5, ..REQUEST }),
        ("the same, budget 0", SearchRequest { budget: 0, ..REQUEST }),
        ("the same, depth 0", SearchRequest { depth: 0, ..REQUEST }),
        ("value 2, depth 0", SearchRequest { value: 2, depth: 0, ..REQUEST }),
        ("the same, not displacing", SearchRequest { value: 2, depth: 0, displacement: false, ..REQUEST }),
        ("value 0, only two candidates offered", SearchRequest { candidate_limit: Some(2), ..REQUEST }),
        ("a row out of range", SearchRequest { row: 4, ..REQUEST }),
        ("a value out of range", SearchRequest { value: 3, ..REQUEST }),
        ("the number for empty, of an empty row", SearchRequest { value: EMPTY, ..REQUEST }),
        ("a value that the row holds", SearchRequest { row: 0, depth: 8, ..REQUEST }),
        ("depth 9", SearchRequest { depth: 9, ..REQUEST }),
    ]
}

fn searches(lists: &mut Lists) {
    lists.begin("searches");
    let lent = lists.built("the index of roster A", &board_t(), &A);
    for (name, request) in requests() {
        lists.ask(name, &lent, Question::Search(request, [4, 4]));
    }
    lists.ask("room for three rows of four", &lent, Question::Search(REQUEST, [3, 4]));
    lists.ask("room for three values of four", &lent, Question::Search(REQUEST, [4, 3]));
    for (candidates, depth) in [(2, 0), (2, 1), (2, 2), (0, 8), (64, 8), (65, 9), (64, 9)] {
        lists.ask(&format!("ceiling {candidates} {depth}"), &lent, Question::Ceiling(candidates, depth));
    }
    lists.end();
}

/// Of the rows that hold a value row 0 has the greatest position, row 1 the least, row 3 none.
fn orders(lists: &mut Lists) {
    let tables = Tables { position: vec![Some(i64::MAX), Some(i64::MIN), None, None], ..board_t() };
    let lent = lists.built("the index of roster A, with positions", &tables, &A);
    for (offset, room) in [(0, 5), (1, 5), (usize::MAX, 5), (0, 3)] {
        lists.ask(&format!("order, offset {offset}, room for {room} rows"), &lent, Question::Order(offset, room));
    }
}

fn ejections(lists: &mut Lists) {
    let lent = lists.built("the index of roster A", &board_t(), &A);
    let mut eject = |name: &str, window: &[usize], attempt, limit, rooms: Rooms| {
        lists.ask(name, &lent, Question::Ejection(window.to_vec(), attempt, limit, rooms));
    };
    eject("window 0 1, attempt 0", &[0, 1], 0, None, [3, 3]);
    eject("window 0 3, attempt 2", &[0, 3], 2, None, [3, 3]);
    eject("a row twice, that may be empty", &[3, 3], 0, None, [3, 3]);
    eject("a required row twice", &[0, 0], 0, None, [3, 3]);
    eject("window 3 2, no candidate offered", &[3, 2], 0, Some(0), [3, 3]);
    eject("window 3 1, no candidate offered", &[3, 1], 0, Some(0), [3, 3]);
    eject("a row out of range", &[7], usize::MAX, None, [3, 3]);
    eject("room for one row of two", &[0, 3], 2, None, [1, 3]);
    eject("room for one value of two", &[0, 3], 2, None, [3, 1]);
    eject("a window of 129 rows", &[3; 129], 0, None, [1, 3]);
}

/// So many steps from a new cursor on: one past the end, since Done repeats.
fn walk(lists: &mut Lists, name: &str, roster: &[Option<usize>], order: &[usize], size: usize, steps: usize) {
    let lent = lists.built(&format!("{name}, the index"), &board_t(), roster);
    let first = lists.ask(&format!("{name}, size {size}"), &lent, Question::NewCursor(order.len(), size));
    let mut at = cursor_of(&first.numbers);
    for step in 1..=steps {
        let question = Question::Step(order.to_vec(), at, [5, 5]);
        at = cursor_of(&lists.ask(&format!("{name}, step {step}"), &lent, question).numbers[1..]);
    }
}

fn refused_steps(lists: &mut Lists, lent: &Lent) {
    let mut step = |name: &str, order: &[usize], start, variant, longest, rooms| {
        lists.ask(name, lent, Question::Step(order.to_vec(), Cursor { start, len: 3, variant, longest }, rooms));
    };
    step("a start over the count", &[0, 1, 3], 4, 0, 3, [5, 5]);
    step("variant 3", &[0, 1, 3], 0, 3, 3, [5, 5]);
    step("a longest window over the count", &[0, 1, 3], 0, 0, 4, [5, 5]);
    step("room for three rows of four", &[0, 1, 3], 0, 0, 3, [3, 4]);
    step("room for three values of four", &[0, 1, 3], 0, 0, 3, [4, 3]);
    step("an order of 129 rows", &[0; 129], 0, 0, 4, [5, 5]);
    lists.ask("a new cursor over 129 rows", lent, Question::NewCursor(129, 4));
}

/// A walk over ejection windows from a new cursor on, to Done and one step past it.
fn ejection_walk(lists: &mut Lists, name: &str, roster: &[Option<usize>], order: &[usize], size: usize, limit: Option<usize>) {
    let lent = lists.built(&format!("{name}, the index"), &board_t(), roster);
    let first = lists.ask(&format!("{name}, size {size}"), &lent, Question::NewEjectionCursor(order.len(), size));
    let mut at = cursor_of(&first.numbers);
    let (mut step, mut done) = (0, 0);
    while done < 2 {
        step += 1;
        let question = Question::EjectionStep(order.to_vec(), at, limit, [5, 5]);
        let seen = lists.ask(&format!("{name}, step {step}"), &lent, question);
        at = cursor_of(&seen.numbers[1..]);
        done += usize::from(seen.flag == 0);
    }
}

/// Over the order 0, 1, 3, of which one try gives a move: cursors before it and behind, and such as do not fit.
fn ejection_cursors(lists: &mut Lists, lent: &Lent) {
    let mut step = |name: &str, numbers: [usize; 4], rooms: Rooms| {
        lists.ask(name, lent, Question::EjectionStep(vec![0, 1, 3], cursor_of(&numbers), None, rooms));
    };
    step("a cursor right before the move", [1, 2, 1, 3], [4, 4]);
    step("all attempts of a window made", [0, 2, 2, 3], [4, 4]);
    step("a length that has no window at its start", [1, 3, 0, 3], [4, 4]);
    step("a cursor at the end, which comes back", [3, 3, 2, 3], [4, 4]);
    step("an ejection cursor with a start over the count", [4, 2, 0, 3], [5, 5]);
    step("a length of one", [0, 1, 0, 3], [5, 5]);
    step("a length over the longest", [0, 3, 0, 2], [5, 5]);
    step("an attempt past a length of two", [1, 2, 3, 3], [5, 5]);
    step("an attempt past a length of three", [0, 3, 4, 3], [5, 5]);
    step("a longest ejection window over the count", [0, 2, 0, 4], [5, 5]);
    step("a longest ejection window under two", [0, 2, 0, 1], [5, 5]);
    step("an attempt past the length, and no room", [1, 2, 3, 3], [3, 3]);
    step("room for three rows of four, over ejection windows", [0, 2, 0, 3], [3, 4]);
    step("room for three values of four, over ejection windows", [0, 2, 0, 3], [4, 3]);
    let long = Question::EjectionStep(vec![0; 129], EJECTIONS.first(4), None, [5, 5]);
    lists.ask("ejection windows of an order of 129 rows", lent, long);
    lists.ask("a new ejection cursor over 128 rows", lent, Question::NewEjectionCursor(128, usize::MAX));
    lists.ask("a new ejection cursor over 129 rows", lent, Question::NewEjectionCursor(129, 4));
}

fn ejection_walks(lists: &mut Lists) {
    ejection_walk(lists, "roster A, ejections of two rows", &A, &[0, 1, 3], 2, None);
    ejection_walk(lists, "roster A, ejections of up to three rows", &A, &[0, 1, 3], 3, None);
    ejection_walk(lists, "roster A, ejections of up to four rows", &A, &[0, 1, 3], 4, None);
    ejection_walk(lists, "ejections with two candidates offered", &A, &[0, 1, 3], 4, Some(2));
    ejection_walk(lists, "ejections with no candidate offered", &A, &[3, 2, 0], 4, Some(0));
    ejection_walk(lists, "ejections with a row twice", &[Some(2), None, Some(0), Some(1)], &[0, 2, 3, 0], 4, None);
    ejection_walk(lists, "ejections of an empty row and one out of range", &A, &[3, 2, 7, 1], usize::MAX, None);
    let lent = lists.built("the index of roster A", &board_t(), &A);
    ejection_cursors(lists, &lent);
}

fn walks(lists: &mut Lists) {
    lists.begin("walks");
    walk(lists, "roster A, windows of two", &A, &[0, 1, 3], 2, 2);
    walk(lists, "roster A, windows of four", &A, &[0, 1, 3], 4, 4);
    walk(lists, "a row twice", &[Some(2), None, Some(0), Some(1)], &[0, 2, 3, 0], 4, 8);
    walk(lists, "equal values, an empty row, one out of range", &B, &[0, 1, 3, 2, 7], usize::MAX, 2);
    let lent = lists.built("the index of roster A", &board_t(), &A);
    refused_steps(lists, &lent);
    ejection_walks(lists);
    lists.end();
}

pub fn blackboard(lists: &mut Lists) {
    searches(lists);
    lists.begin("windows");
    orders(lists);
    ejections(lists);
    lists.end();
    walks(lists);
}
