//! The index of board T built, refreshed and asked for conflicts, every cell of it; and each refusal, which leaves what was lent as it was.
use super::blackboard::{board_t, A, B};
use super::lists::Lists;
use crate::differ::lent::{pack, Damage, Lent, Slice, EMPTY};
use crate::differ::question::{self, Question};

fn refresh(rows: &[usize], values: &[usize]) -> Question {
    Question::Refresh(vec![question::Lists { rows: rows.to_vec(), values: values.to_vec() }])
}

fn damaged(lent: &Lent, damage: Damage) -> Lent {
    let mut lent = lent.clone();
    damage.apply(&mut lent);
    lent
}

/// Row 3 leaves its value to row 2: the index is the one that the roster then gives.
fn refreshed(lists: &mut Lists) {
    let of_a = lists.built("the index of roster A", &board_t(), &A);
    lists.ask("admitted", &of_a, Question::Admit);
    lists.ask("refreshed by row 3 to empty, row 2 to 2", &of_a, refresh(&[3, 2], &[EMPTY, 2]));
    let after = lists.built("the index of the roster that this leaves", &board_t(), &[Some(0), Some(1), Some(2), None]);
    lists.ask("admitted too", &after, Question::Admit);
}

fn conflicts(lists: &mut Lists) {
    let of_b = lists.built("the index of roster B", &board_t(), &B);
    lists.ask("roster B admitted", &of_b, Question::Admit);
    lists.ask("conflicts of roster B", &of_b, Question::Conflicts([6, 6]));
    lists.ask("3 cells for keys", &of_b, Question::Conflicts([3, 6]));
    lists.ask("3 cells for rows", &of_b, Question::Conflicts([6, 3]));
    lists.ask("conflicts of a false index", &damaged(&of_b, Damage::Member(0, 2)), Question::Conflicts([6, 6]));
}

/// The list would be accepted: what is lent is at fault.
fn lent_at_fault(lists: &mut Lists, of_a: &Lent) {
    for (name, damage) in [
        ("marks one short", Damage::Length(Slice::Marks, -1)),
        ("records one short", Damage::Length(Slice::Records, -1)),
        ("a count of 65", Damage::CandidateCount(0, 65)),
        ("a held value 3", Damage::Record(0, 3)),
        ("two members swapped", Damage::MembersExchanged(1, 2)),
        ("one record cell changed", Damage::Record(8, 2)),
        ("a membership count too high", Damage::Member(0, 4)),
    ] {
        lists.ask(name, &damaged(of_a, damage), refresh(&[3], &[EMPTY]));
    }
}

/// The first bad entry decides, and a good one before it changes nothing.
fn list_at_fault(lists: &mut Lists, of_a: &Lent) {
    for (name, rows, values) in [
        ("list slices of unequal length", &[3, 2][..], &[EMPTY][..]),
        ("row 4", &[4], &[0]),
        ("row 0 named twice", &[0, 0], &[1, 2]),
        ("value 3", &[0], &[3]),
        ("row 4, then value 3", &[4, 0], &[0, 3]),
        ("value 3, then row 4", &[0, 4], &[3, 0]),
        ("row 3 to empty, then row 4", &[3, 4], &[EMPTY, 0]),
    ] {
        lists.ask(name, of_a, refresh(rows, values));
    }
}

pub fn indexes(lists: &mut Lists) {
    lists.begin("indexes");
    refreshed(lists);
    conflicts(lists);
    let of_a = pack(&board_t(), &A, 0);
    lent_at_fault(lists, &of_a);
    list_at_fault(lists, &of_a);
    lists.ask("a roster one short", &damaged(&of_a, Damage::Length(Slice::Roster, -1)), Question::Build);
    lists.ask("a roster with value 3", &damaged(&of_a, Damage::Held(3, 3)), Question::Build);
    lists.end();
}
