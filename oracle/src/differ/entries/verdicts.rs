//! The final test, the reinsertion test, soundness.
use super::super::lent::Lent;
use super::super::library::Library;
use super::super::question::{Lists, Seen};
use super::flag_asked;
use crate::Original;
use turepawon::raw::EditRecord;

fn verdict(yes: bool) -> Seen {
    Seen::before(0, [0, 0], None).answered(yes)
}

pub fn final_expected(original: &mut Original, list: &Lists) -> Seen {
    verdict(original.final_test(&list.edits()))
}

pub fn final_asked(library: &dyn Library, lent: &Lent, list: &Lists) -> Seen {
    flag_asked(|answer| library.feasible(lent, list, answer))
}

/// The same list as records, which are only read.
pub fn records_asked(library: &dyn Library, lent: &Lent, list: &Lists) -> Seen {
    let record = |(&row, &value)| EditRecord { row, value };
    let edits: Vec<EditRecord> = list.rows.iter().zip(&list.values).map(record).collect();
    let before = edits.clone();
    let mut seen = flag_asked(|answer| library.feasible_records(&edits, lent, answer));
    seen.spilled = edits != before;
    seen
}

pub fn reinsert_expected(original: &mut Original, list: &Lists, row: usize, value: usize) -> Seen {
    verdict(original.reinsert_test(&list.edits(), row, value))
}

pub fn reinsert_asked(library: &dyn Library, lent: &Lent, list: &Lists, row: usize, value: usize) -> Seen {
    flag_asked(|answer| library.reinsert(lent, list, row, value, answer))
}

/// Whether keys and pairs are in order, over the original's memberships: no key has two holders, and under the edge rule every neighbouring pair is allowed.
pub fn is_clear(lent: &Lent, original: &Original) -> bool {
    let index = original.index();
    let edges = super::super::lent::Layout::of(lent.rows, lent.values).edges();
    let allowed = |left: usize, right: usize| lent.marks[edges + left * lent.rows + right] != 0;
    let next = |(value, sequence): (usize, usize)| {
        index.by_sequence.iter().filter(move |(place, _)| place.0 == value && sequence.checked_add(1) == Some(place.1))
    };
    let crowded = index.by_capacity.iter().any(|(_, holders)| holders.len() > 1);
    let refused = index
        .by_sequence
        .iter()
        .any(|(place, left)| next(*place).any(|(_, right)| left.iter().any(|&l| right.iter().any(|&r| !allowed(l, r)))));
    let forbidden = lent.edge_rule != 0 && refused;
    !crowded && !forbidden
}

/// The original has no such question: the rule's words, that keys and pairs are in order, and every value that is held is legal for its row.
pub fn sound_expected(lent: &Lent, original: &Original) -> Seen {
    let index = original.index();
    let illegal = index.by_value.iter().any(|(value, holders)| holders.iter().any(|&row| !lent.legal(row, *value)));
    verdict(is_clear(lent, original) && !illegal)
}

pub fn sound_asked(library: &dyn Library, lent: &Lent) -> Seen {
    flag_asked(|answer| library.sound(lent, answer))
}
