//! What the tables of small boards say, asked of every row and value, in range and one past it; and damaged tables, with the refusal of each.
use super::blackboard::{board_t, A, B};
use super::lists::Lists;
use crate::differ::lent::{number_of, pack, Damage, Lent, Slice, EMPTY};
use crate::differ::question::{self, Question};
use crate::tables::Tables;

/// Two rows, the first required and with the least position, the second with the greatest order; a key that is the greatest number, and one that is 0.
fn board_e() -> Tables {
    Tables {
        required: vec![1, 0],
        may_empty: vec![0, 1],
        position: vec![Some(i64::MIN), None],
        order: vec![None, Some(i64::MAX)],
        candidates: vec![vec![1], vec![1, 0]],
        legal: vec![0, 1, 1, 0],
        capacity: vec![None, Some(usize::MAX), None, None],
        sequence: vec![None, None, Some(0), None],
        edge_rule: true,
        edges: vec![0, 1, 0, 0],
        ..Tables::blank(2, 2)
    }
}

/// A list of one edit.
fn edit(row: usize, value: usize) -> question::Lists {
    question::Lists { rows: vec![row], values: vec![value] }
}

/// The keys of each value, as the index that holds it everywhere records them; then which rows may take which values, or be empty.
fn cells(lists: &mut Lists, board: &str, tables: &Tables) {
    for value in 0..=tables.values {
        lists.built(&format!("board {board}, the keys of value {value}"), tables, &vec![Some(value); tables.rows]);
    }
    let none_held = pack(tables, &vec![None; tables.rows], 0);
    for row in 0..=tables.rows {
        for value in (0..=tables.values).chain([EMPTY]) {
            lists.ask(&format!("board {board}, row {row} to {value}"), &none_held, Question::Final(edit(row, value)));
        }
    }
}

/// A row may be emptied, or left empty, unless it is required.
fn emptied(lists: &mut Lists) {
    let three_held = pack(&board_t(), &[Some(0), Some(1), Some(2), None], 0);
    for row in 0..4 {
        lists.ask(&format!("board T, row {row} emptied"), &three_held, Question::Final(edit(row, EMPTY)));
    }
}

/// Which candidates a row has, in which order, and how many a limit leaves. Cells that nobody may read hold rubbish, and flags are any number.
fn candidates(lists: &mut Lists) {
    let turned = Tables { candidates: vec![vec![2, 0, 1], vec![1], vec![], vec![1, 2]], ..board_t() };
    for (board, tables) in [("E", &board_e()), ("T, candidates turned", &turned)] {
        let none_held = pack(tables, &vec![None; tables.rows], 7);
        for (row, attempt) in (0..=tables.rows).flat_map(|row| [(row, 0), (row, 1)]) {
            for limit in [None, Some(2), Some(0)] {
                let name = format!("board {board}, row {row}, attempt {attempt}, limit {}", number_of(limit));
                lists.ask(&name, &none_held, Question::Ejection(vec![row], attempt, limit, [1, 1]));
            }
        }
    }
}

/// Positions and orders at both ends of 64 bits.
fn ranks(lists: &mut Lists) {
    lists.ask("board E, the order of both rows", &pack(&board_e(), &[Some(1), Some(0)], 7), Question::Order(0, 2));
    for (first, second) in [(i64::MIN, i64::MAX), (i64::MAX, i64::MIN)] {
        let tables = Tables { order: vec![Some(first), Some(second), None, Some(0)], ..board_t() };
        lists.ask(&format!("board T, conflicts, orders {first} {second}"), &pack(&tables, &B, 7), Question::Conflicts([4, 4]));
    }
}

/// Whether a roster is sound in which one row holds a value, or none does: what is held must be legal, and who is empty holds nothing, though it may not be empty.
fn holdings(lists: &mut Lists) {
    let tables = board_e();
    let mut ask = |name: &str, roster: [Option<usize>; 2]| {
        lists.ask(&format!("board E, {name}, whether it is sound"), &pack(&tables, &roster, 7), Question::Sound);
    };
    ask("nothing held", [None, None]);
    for value in 0..2 {
        ask(&format!("row 0 holds {value}"), [Some(value), None]);
        ask(&format!("row 1 holds {value}"), [None, Some(value)]);
    }
}

/// A driver that is no longer passed for what it has: roster A is sound until value 2 is withdrawn from row 3, and again when row 3 is emptied; a list that does not touch the row passes meanwhile.
fn withdrawn(lists: &mut Lists) {
    lists.ask("board T, whether roster A is sound", &pack(&board_t(), &A, 7), Question::Sound);
    let mut tables = board_t();
    tables.legal[3 * tables.values + 2] = 0;
    let held = pack(&tables, &A, 7);
    lists.ask("board T, value 2 withdrawn from row 3, whether roster A is sound", &held, Question::Sound);
    lists.ask("the same, row 1 to 1", &held, Question::Final(edit(1, 1)));
    lists.ask("the same, row 3 to 2", &held, Question::Final(edit(3, 2)));
    let left = pack(&tables, &[Some(0), Some(1), None, None], 7);
    lists.ask("the same, row 3 emptied, whether it is sound", &left, Question::Sound);
}

/// Both rows of board E at value 0, row 0 before row 1 or behind it: the edge from 0 to 1 is allowed, that from 1 to 0 is not.
fn edges(lists: &mut Lists) {
    for (rule, first, second) in [(true, 0, 1), (true, 1, 0), (false, 1, 0)] {
        let sequence = vec![Some(first), None, Some(second), None];
        let tables = Tables { legal: vec![1; 4], sequence, edge_rule: rule, ..board_e() };
        let both = question::Lists { rows: vec![0, 1], values: vec![0, 0] };
        let name = format!("board E, edge rule {rule}, sequences {first} {second}");
        lists.ask(&name, &pack(&tables, &[None, None], 7), Question::Final(both));
        lists.ask(&format!("{name}, whether it is sound"), &pack(&tables, &[Some(0), Some(0)], 7), Question::Sound);
    }
}

/// Board T with these damages.
fn damaged(damages: &[Damage]) -> Lent {
    let mut lent = pack(&board_t(), &A, 0);
    damages.iter().for_each(|damage| damage.apply(&mut lent));
    lent
}

fn refusals(lists: &mut Lists) {
    let mut refuse = |name: &str, damages: &[Damage]| lists.ask(name, &damaged(damages), Question::Tables);
    refuse("as they are", &[]);
    for (slice, what) in [(Slice::Marks, "marks"), (Slice::Keys, "keys"), (Slice::Ranks, "ranks")] {
        refuse(&format!("{what} one short"), &[Damage::Length(slice, -1)]);
        refuse(&format!("{what} one over"), &[Damage::Length(slice, 1)]);
    }
    refuse("129 rows, lengths to fit", &[Damage::Blank(129, 3)]);
    refuse("65 values, lengths to fit", &[Damage::Blank(4, 65)]);
    refuse("2^64 - 1 rows", &[Damage::Rows(usize::MAX)]);
    refuse("2^64 - 1 rows and values", &[Damage::Rows(usize::MAX), Damage::Values(usize::MAX)]);
    refuse("2^64 - 1 values", &[Damage::Values(usize::MAX)]);
    refuse("a counted candidate that is no value", &[Damage::Candidate(0, 3)]);
    refuse("an uncounted candidate that is no value", &[Damage::Candidate(3, 255)]);
    refuse("a count of 65", &[Damage::CandidateCount(0, 65)]);
    refuse("a count of 65 and keys one short", &[Damage::CandidateCount(0, 65), Damage::Length(Slice::Keys, -1)]);
    refuse("no rows and empty slices", &[Damage::Blank(0, 3)]);
    refuse("no values and no candidates", &[Damage::Blank(4, 0)]);
    refuse("no values and one counted candidate", &[Damage::Blank(4, 0), Damage::CandidateCount(0, 1)]);
    for (slice, what) in [(Slice::Records, "records"), (Slice::Members, "members")] {
        lists.ask(&format!("an index with {what} one short"), &damaged(&[Damage::Length(slice, -1)]), Question::Admit);
    }
}

pub fn hooks(lists: &mut Lists) {
    lists.begin("hooks");
    cells(lists, "T", &board_t());
    cells(lists, "E", &board_e());
    emptied(lists);
    candidates(lists);
    ranks(lists);
    edges(lists);
    holdings(lists);
    withdrawn(lists);
    lists.end();
    lists.begin("damaged tables");
    refusals(lists);
    lists.end();
}
