//! Ejection walks: by steps, and the same tries by hand. A try by hand asks for its list, and for the final test where the list has an edit.
use crate::measure::{middle, rounds, summaries};
use crate::outputs::Out;
use crate::windows::entry_order;
use crate::{keep, line, Board};
use oracle::{Edit, Original};
use std::hint::black_box;
use turepawon::raw;

/// Every try of a walk over windows of at most so many rows, in order: a window and an attempt.
fn tries(order: &[usize], size: usize) -> impl Iterator<Item = (&[usize], usize)> {
    let windows =
        (0..order.len()).flat_map(move |start| (2..=size.min(order.len() - start)).map(move |length| &order[start..start + length]));
    windows.flat_map(|window| (0..window.len()).map(move |attempt| (window, attempt)))
}

/// By the original's parts.
fn by_parts(original: &mut Original, order: &[usize], size: usize, mut give: impl FnMut(Vec<Edit>)) {
    for (window, attempt) in tries(order, size) {
        let list = original.ejection(window, attempt, None).filter(|edits| !edits.is_empty());
        if let Some(edits) = list.filter(|edits| original.final_test(edits)) {
            give(edits);
        }
    }
}

/// A new cursor, and steps to Done.
fn by_steps(board: &Board, order: &[usize], size: usize, mut give: impl FnMut(&Out)) {
    let (mut cursor, mut out) = ([0; 4], Out::new());
    assert_eq!(raw::new_ejection_cursor(order.len(), size, &mut cursor), 0);
    loop {
        let Out { rows, values, flag, count, .. } = &mut out;
        let (records, members, limit) = (&board.records, &board.members, usize::MAX);
        let code = raw::next_ejection_reinsert(board.packed.lent(), records, members, order, &mut cursor, limit, rows, values, flag, count);
        assert_eq!(code, 0);
        if out.flag == 0 {
            return;
        }
        give(&out);
    }
}

/// By the two entries that a try is made of: how many calls there are, each of which is validated.
fn by_hand(board: &Board, order: &[usize], size: usize, mut give: impl FnMut(&Out)) -> usize {
    let (lent, records, members) = (board.packed.lent(), &board.records, &board.members);
    let (mut out, mut calls) = (Out::new(), 0);
    for (window, attempt) in tries(order, size) {
        let Out { rows, values, flag, count, .. } = &mut out;
        assert_eq!(raw::ejection_reinsert_edits(lent, records, members, window, attempt, usize::MAX, rows, values, flag, count), 0);
        calls += 1;
        if out.flag == 1 && out.count > 0 {
            let mut answer = 2;
            let (rows, values) = (&out.rows[..out.count], &out.values[..out.count]);
            assert_eq!(raw::assignment_feasible_after_edits(lent, records, members, rows, values, &mut answer), 0);
            calls += 1;
            if answer == 1 {
                give(&out);
            }
        }
    }
    calls
}

/// The moves of all three, which must be the same: how many there are, and how many calls by hand.
fn compared(name: &str, board: &Board, order: &[usize], size: usize) -> (usize, usize) {
    let (mut parts, mut steps, mut hand) = (Vec::new(), Vec::new(), Vec::new());
    by_parts(&mut board.original(), order, size, |edits| parts.push(edits));
    by_steps(board, order, size, |out| steps.extend(out.edits()));
    let calls = by_hand(board, order, size, |out| hand.extend(out.edits()));
    assert_eq!(parts, steps, "{name}");
    assert_eq!(parts, hand, "{name}");
    (parts.len(), calls)
}

/// So many rows of the order that a sample takes about a millisecond: a busy machine leaves such samples whole.
const ROWS: usize = 32;

/// The order is lent, and no part of it. Steps are validated for each move and for the one that finds none; by hand every call is. So of the calls by hand all validations are taken off but as many as the steps have: the name tells what the steps take of what is left.
pub fn walk(name: &str, board: &Board, size: usize) {
    let mut original = board.original();
    let mut rows = [0; 128];
    let count = entry_order(board, 0, &mut rows).min(ROWS);
    let order = &rows[..count];
    let (moves, calls) = compared(name, board, order, size);
    let mut own = || (0..moves + 1).for_each(|_| board.admit());
    let mut others = || (0..calls.saturating_sub(moves + 1)).for_each(|_| board.admit());
    let rounds = rounds([
        &mut || by_parts(&mut original, black_box(order), size, keep),
        &mut || by_steps(board, black_box(order), size, |out| keep(out)),
        &mut || keep(by_hand(board, black_box(order), size, |out| keep(out))),
        &mut own,
        &mut others,
    ]);
    let share = middle(rounds.iter().map(|[_, steps, hand, _, others]| steps / (hand - others)));
    let [parts, steps, _, own, _] = summaries(&rounds);
    let tried = tries(order, size).count();
    line(&format!("{name}: {moves} moves of {tried} tries; steps to tries by hand {share}"), [parts, steps, own]);
}
