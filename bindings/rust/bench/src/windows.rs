//! The order, whole rematch walks, ejections and searches.
use crate::measure::{times, Time};
use crate::outputs::{Out, Walked};
use crate::{keep, line, Board};
use oracle::SearchRequest;
use std::hint::black_box;
use turepawon::raw;

pub fn entry_order(board: &Board, offset: usize, rows: &mut [usize; 128]) -> usize {
    let mut count = 0;
    assert_eq!(raw::assigned_entities_by_position(board.packed.lent(), &board.records, &board.members, offset, rows, &mut count), 0);
    count
}

pub fn order(name: &str, board: &Board, offset: usize) {
    let original = board.original();
    let mut rows = [0; 128];
    let count = entry_order(board, offset, &mut rows);
    assert_eq!(original.order(offset).as_slice(), &rows[..count], "{name}");
    let mut entry = || keep(entry_order(board, black_box(offset), &mut rows));
    line(name, times([&mut || keep(original.order(black_box(offset))), &mut entry, &mut || board.admit()]));
}

/// The order, a new cursor, and steps to Done: how many moves there are.
fn walk(order: &[usize], size: usize, mut step: impl FnMut(&[usize], &mut raw::CursorCells, &mut Out) -> u8) -> usize {
    let (mut cursor, mut out, mut moves) = ([0; 4], Out::new(), 0);
    assert_eq!(raw::new_cursor(order.len(), size, &mut cursor), 0);
    loop {
        assert_eq!(step(order, &mut cursor, &mut out), 0);
        if out.flag == 0 {
            return moves;
        }
        moves += 1;
    }
}

/// Validated for the order, for each move, and for the step that finds none.
pub fn rematch_walk(name: &str, board: &Board, size: usize) {
    let mut original = board.original();
    let (records, members) = (&board.records, &board.members);
    let entry = || {
        let mut rows = [0; 128];
        let count = entry_order(board, 0, &mut rows);
        walk(&rows[..count], size, |order, cursor, out| {
            let Out { rows, values, flag, count, .. } = out;
            raw::next_augmenting_rematch(board.packed.lent(), records, members, order, cursor, rows, values, flag, count)
        })
    };
    let moves = original.walk_count(0, size);
    assert_eq!(moves, entry(), "{name}");
    let name = format!("{name}: {moves} moves");
    let mut validation = || (0..moves + 2).for_each(|_| board.admit());
    line(&name, times([&mut || keep(original.walk_count(0, black_box(size))), &mut || keep(entry()), &mut validation]));
}

/// A new cursor, and all moves of the order in one call: how many there are.
fn walk_once(
    order: &[usize],
    size: usize,
    out: &mut Walked,
    call: impl FnOnce(&[usize], &mut raw::CursorCells, &mut Walked) -> u8,
) -> usize {
    let mut cursor = [0; 4];
    assert_eq!(raw::new_cursor(order.len(), size, &mut cursor), 0);
    assert_eq!((call(order, &mut cursor, out), out.done), (0, 1));
    out.moves
}

/// The original by single steps, which keeps its state between them; the engine by one call with room for all moves. The order is part of it, and so it is validated twice.
pub fn walk_in_one_call(name: &str, board: &Board, size: usize) {
    let mut original = board.original();
    let (records, members) = (&board.records, &board.members);
    let entry = |out: &mut Walked| {
        let mut rows = [0; 128];
        let count = entry_order(board, 0, &mut rows);
        walk_once(&rows[..count], size, out, |order, cursor, out| {
            let Walked { rows, values, lengths, done, moves, edits } = out;
            raw::walk_augmenting_rematch(board.packed.lent(), records, members, order, cursor, rows, values, lengths, done, moves, edits)
        })
    };
    let mut out = Walked::new(4096);
    let expected: Vec<_> = original.walk(0, size).into_iter().map(|(edits, _)| edits).collect();
    assert_eq!(expected.len(), entry(&mut out), "{name}");
    assert_eq!(expected, out.list(), "{name}");
    let name = format!("{name}: {} moves", expected.len());
    let mut first = || keep(original.walk_count(0, black_box(size)));
    let mut validation = || (0..2).for_each(|_| board.admit());
    line(&name, times([&mut first, &mut || keep(entry(&mut out)), &mut validation]));
}

pub fn ejection(name: &str, board: &Board, window: &[usize], attempt: usize) {
    let mut original = board.original();
    let mut out = Out::new();
    let mut entry = || {
        let Out { rows, values, flag, count, .. } = &mut out;
        let (records, members, window) = (&board.records, &board.members, black_box(window));
        let code =
            raw::ejection_reinsert_edits(board.packed.lent(), records, members, window, attempt, usize::MAX, rows, values, flag, count);
        assert_eq!(code, 0);
        out.edits()
    };
    assert_eq!(original.ejection(window, attempt, None), entry(), "{name}");
    let mut first = || keep(original.ejection(black_box(window), attempt, None));
    line(name, times([&mut first, &mut || keep(entry()), &mut || board.admit()]));
}

pub fn search(name: &str, board: &Board, row: usize, value: usize, depth: usize, displacement: bool) {
    let mut original = board.original();
    let request = SearchRequest { row, value, depth, displacement, candidate_limit: None, budget: usize::MAX };
    let asked = raw::Request { row, value, depth, displacement: u8::from(displacement), limit: usize::MAX, budget: usize::MAX };
    let mut out = Out::new();
    let mut entry = || {
        let Out { rows, values, flag, asks, count } = &mut out;
        let (records, members) = (&board.records, &board.members);
        let code =
            raw::assignment_move_for_entity_value(board.packed.lent(), records, members, black_box(asked), rows, values, flag, asks, count);
        assert_eq!(code, 0);
        (out.edits(), out.asks)
    };
    let (found, asks) = original.search(&request);
    assert_eq!((&found, asks), (&entry().0, entry().1), "{name}");
    let name = format!("{name}: {asks} asks, {}", if found.is_some() { "a move" } else { "none" });
    let taken = times([&mut || keep(original.search(black_box(&request))), &mut || keep(entry()), &mut || board.admit()]);
    let an_ask = |time: Time| time.best / asks as f64;
    line(&format!("{name}; ns an ask {:.1} and {:.1} (less admit)", an_ask(taken[0]), an_ask(taken[1].less(taken[2]))), taken);
}
