//! Lists applied to the index of board T: what passes changes it, what fails or is refused leaves every cell; and acts in turn, each of the index that the one before left.
use super::blackboard::{board_t, A, B};
use super::lists::Lists;
use crate::differ::lent::{pack, Damage, Lent, Slice, EMPTY};
use crate::differ::question::{self, Act, Question};
use crate::tables::Tables;

fn edits(rows: &[usize], values: &[usize]) -> question::Lists {
    question::Lists { rows: rows.to_vec(), values: values.to_vec() }
}

fn apply(rows: &[usize], values: &[usize]) -> Question {
    Question::Apply(edits(rows, values))
}

/// Row 3 leaves its value to row 2.
fn passing() -> Question {
    apply(&[3, 2], &[EMPTY, 2])
}

/// Row 0 holds the key.
fn failing() -> Question {
    apply(&[2], &[0])
}

fn verdicts(lists: &mut Lists) {
    let of_a = lists.built("the index of roster A", &board_t(), &A);
    for (name, rows, values) in [
        ("row 3 to empty, row 2 to 2: it passes", &[3, 2][..], &[EMPTY, 2][..]),
        ("rows 0 and 1 exchange their values", &[0, 1], &[1, 0]),
        ("row 0 to 0, which it holds", &[0], &[0]),
        ("the empty list", &[], &[]),
        ("row 2 to 0, which row 0 holds: it fails", &[2], &[0]),
        ("row 3 to empty, then row 2 to 0", &[3, 2], &[EMPTY, 0]),
        ("row 4", &[4], &[0]),
        ("row 4 to empty", &[4], &[EMPTY]),
        ("row 3 to empty, then row 4", &[3, 4], &[EMPTY, 0]),
        ("row 2 twice", &[2, 2], &[EMPTY, EMPTY]),
        ("row 0, which is required, to empty", &[0], &[EMPTY]),
        ("value 3", &[2], &[3]),
    ] {
        lists.ask(name, &of_a, apply(rows, values));
    }
    lists.ask("the index after row 3 to empty, row 2 to 2", &pack(&board_t(), &[Some(0), Some(1), Some(2), None], 0), Question::Build);
}

/// Of rosters and tables that are not those of A and T.
fn elsewhere(lists: &mut Lists) {
    let of_b = lists.built("the index of roster B", &board_t(), &B);
    lists.ask("roster B, not sound, and still not behind it: row 2 to 1", &of_b, apply(&[2], &[1]));
    lists.ask("roster B, row 3 to empty: two holders are left", &of_b, apply(&[3], &[EMPTY]));
    lists.ask("roster B, row 1 to 1, row 3 to 2", &of_b, apply(&[1, 3], &[1, 2]));
    let nothing = lists.built("the index of a roster that holds nothing", &board_t(), &[None; 4]);
    lists.ask("row 0, required and empty, to empty", &nothing, apply(&[0], &[EMPTY]));
    lists.ask("all of roster A at once", &nothing, apply(&[0, 1, 3], &[0, 1, 2]));
    let mut illegal = board_t();
    illegal.legal[2 * 3 + 2] = 0;
    lists.ask("value 2 not legal for row 2", &pack(&illegal, &A, 0), passing());
    let never_empty = Tables { may_empty: vec![1, 1, 1, 0], ..board_t() };
    lists.ask("row 3 may not be empty", &pack(&never_empty, &A, 0), passing());
}

/// Row 1 may follow row 0, and row 2 may not follow row 1.
fn neighbours(lists: &mut Lists) {
    let tables = Tables {
        capacity: vec![None; 12],
        sequence: (0..12).map(|cell| Some(cell / 3)).collect(),
        edge_rule: true,
        edges: (0..16).map(|edge| u8::from(edge == 1)).collect(),
        ..board_t()
    };
    let lent = lists.built("one row of a run, under the edge rule", &tables, &[Some(0), None, None, None]);
    lists.ask("the row behind it", &lent, apply(&[1], &[0]));
    lists.ask("both rows behind it", &lent, apply(&[1, 2], &[0, 0]));
}

/// What the final test refuses, by the same numbers, whatever the list would have come to.
fn refused(lists: &mut Lists, of_a: &Lent) {
    let damaged = |damage: Damage| {
        let mut lent = of_a.clone();
        damage.apply(&mut lent);
        lent
    };
    for (name, damage) in [
        ("marks one short", Damage::Length(Slice::Marks, -1)),
        ("members one short", Damage::Length(Slice::Members, -1)),
        ("a count of 65", Damage::CandidateCount(0, 65)),
        ("a held value 3", Damage::Record(0, 3)),
        ("two members swapped", Damage::MembersExchanged(1, 2)),
        ("one record cell changed", Damage::Record(8, 2)),
    ] {
        lists.ask(&format!("{name}, a list that passes"), &damaged(damage), passing());
        lists.ask(&format!("{name}, a list that fails"), &damaged(damage), failing());
    }
    lists.ask("two members swapped, the empty list", &damaged(Damage::MembersExchanged(1, 2)), apply(&[], &[]));
    lists.ask("two members swapped, row 4", &damaged(Damage::MembersExchanged(1, 2)), apply(&[4], &[0]));
    lists.ask("a value less than rows", of_a, apply(&[3, 2], &[EMPTY]));
    lists.ask("a row less than values", of_a, apply(&[3], &[EMPTY, 2]));
    lists.ask("a value less than rows, and two members swapped", &damaged(Damage::MembersExchanged(1, 2)), apply(&[3, 2], &[EMPTY]));
}

/// To another roster and back, with what fails and what is refused in between; then to one that is not sound, and out of it.
fn in_turn(lists: &mut Lists, of_a: &Lent) {
    use Act::{Apply, Refresh};
    let acts = [
        ("row 3 to empty, row 2 to 2 applied", Apply, edits(&[3, 2], &[EMPTY, 2])),
        ("then row 3 to 2: it fails", Apply, edits(&[3], &[2])),
        ("then row 2 to empty refreshed", Refresh, edits(&[2], &[EMPTY])),
        ("then row 3 to 2 applied: roster A again", Apply, edits(&[3], &[2])),
        ("then rows 0 and 1 exchanged", Apply, edits(&[0, 1], &[1, 0])),
        ("then a value less than rows", Apply, edits(&[0, 1], &[0])),
        ("then row 4 refreshed", Refresh, edits(&[4], &[0])),
        ("then row 4 applied", Apply, edits(&[4], &[0])),
        ("then the exchange undone: roster A again", Apply, edits(&[0, 1], &[0, 1])),
        ("then row 1 to 0 refreshed: two rows hold the key", Refresh, edits(&[1], &[0])),
        ("then row 0 to 0 applied: it fails", Apply, edits(&[0], &[0])),
        ("then row 2 to 1 applied: the key is not touched", Apply, edits(&[2], &[1])),
        ("then row 2 to empty, row 1 to 1 applied: roster A again", Apply, edits(&[2, 1], &[EMPTY, 1])),
        ("then all rows to empty refreshed", Refresh, edits(&[0, 1, 2, 3], &[EMPTY; 4])),
        ("then roster A applied", Apply, edits(&[0, 1, 3], &[0, 1, 2])),
    ];
    lists.in_turn(of_a, acts);
    let mut lent = of_a.clone();
    Damage::MembersExchanged(1, 2).apply(&mut lent);
    let refused = [
        ("two members swapped, applied", Apply, edits(&[3], &[EMPTY])),
        ("then refreshed", Refresh, edits(&[3], &[EMPTY])),
        ("then a list that fails", Apply, edits(&[2], &[0])),
    ];
    lists.in_turn(&lent, refused);
}

pub fn applications(lists: &mut Lists) {
    lists.begin("applications");
    verdicts(lists);
    elsewhere(lists);
    neighbours(lists);
    let of_a = pack(&board_t(), &A, 0);
    refused(lists, &of_a);
    in_turn(lists, &of_a);
    lists.end();
}
