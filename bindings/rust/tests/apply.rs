//! Test and application as one act, against the two calls that it stands for: every list of up to three edits on two boards, from rosters that are sound and from one that is not; and the moves that the engine finds, applied one after the other.
use turepawon::{Conflict, Cursor, Edit, EjectionCursor, Index, Request, Roster, TableData, Tables, Verdict};

/// Four rows, three values, all legal, all may be empty, key = value, rows 0 and 1 required.
fn worked_board() -> Tables {
    let mut board = Tables::builder(4, 3);
    for row in 0..4 {
        board.required(row, row < 2).may_be_empty(row, true).candidates(row, 0..3);
        for value in 0..3 {
            board.legal(row, value, true).capacity(row, value, value);
        }
    }
    board.build().expect("the board is well formed")
}

/// Three rows on three days and two values under the edge rule: row 1 may follow row 0, and row 2 may not follow row 1. Rows 0 and 2 want the same key of value 1, which is not legal for row 1. Row 1 is required, and row 2 may not be empty.
fn ruled_board() -> Tables {
    let mut board = Tables::builder(3, 2);
    board.edge_rule(true).edge(0, 1, true).required(1, true).may_be_empty(0, true).may_be_empty(1, true);
    for row in 0..3 {
        board.candidates(row, 0..2).legal(row, 0, true).sequence(row, 0, row).legal(row, 1, row != 1).sequence(row, 1, row);
    }
    board.capacity(0, 1, 9).capacity(2, 1, 9);
    board.build().expect("the board is well formed")
}

/// Six rows, two a day, and four values under the edge rule: nobody has two duties of a day, and row 3 may not follow row 0.
fn days() -> Tables {
    let mut board = Tables::builder(6, 4);
    board.edge_rule(true);
    for row in 0..6 {
        board.required(row, row < 3).may_be_empty(row, true).candidates(row, 0..4);
        for value in 0..4 {
            board.legal(row, value, true).capacity(row, value, 3 * value + row / 2).sequence(row, value, row / 2);
        }
        for follower in 0..6 {
            board.edge(row, follower, (row, follower) != (0, 3));
        }
    }
    board.build().expect("the board is well formed")
}

fn roster_a(tables: &Tables) -> Index<&Tables> {
    Index::build(tables, &Roster::new([Some(0), Some(1), None, Some(2)])).unwrap()
}

/// What the two calls come to: the final test and, behind a yes, the refresh.
fn by_two_calls<'t>(index: &Index<&'t Tables>, edits: &[Edit]) -> (Verdict, Index<&'t Tables>) {
    let (verdict, mut after) = (index.assignment_feasible_after_edits(edits).unwrap(), index.clone());
    if verdict.is_yes() {
        after.refresh_rows(edits).unwrap();
    }
    (verdict, after)
}

fn by_one_call<'t>(index: &Index<&'t Tables>, edits: &[Edit]) -> (Verdict, Index<&'t Tables>) {
    let mut after = index.clone();
    (after.apply(edits).unwrap(), after)
}

/// The roster after the edits, by hand.
fn roster_after(roster: &Roster, edits: &[Edit]) -> Roster {
    let mut held: Vec<Option<usize>> = roster.iter().collect();
    edits.iter().for_each(|edit| held[edit.row] = edit.value);
    Roster::new(held)
}

/// Every list of so many edits, also with a row twice; one row and one value are out of range.
fn lists(tables: &Tables, length: usize) -> Vec<Vec<Edit>> {
    if length == 0 {
        return vec![vec![]];
    }
    let values = || (0..=tables.values()).map(Some).chain([None]);
    let edits: Vec<Edit> = (0..=tables.rows()).flat_map(|row| values().map(move |value| Edit { row, value })).collect();
    let shorter = lists(tables, length - 1);
    shorter.iter().flat_map(|list| edits.iter().map(move |&edit| [list.as_slice(), &[edit]].concat())).collect()
}

/// How many lists of up to three edits pass, and how many do not. Each leaves what the two calls leave: the index of the roster after it, or every cell as it was.
fn compared(index: &Index<&Tables>) -> [usize; 2] {
    let mut counts = [0; 2];
    for edits in (0..=3).flat_map(|length| lists(index.tables(), length)) {
        let found = by_one_call(index, &edits);
        assert_eq!(found, by_two_calls(index, &edits), "{edits:?}");
        let (verdict, after) = found;
        let expected = match verdict {
            Verdict::Yes => Index::build(index.tables(), &roster_after(&index.roster(), &edits)).unwrap(),
            Verdict::No => index.clone(),
        };
        assert_eq!(after, expected, "{edits:?}");
        counts[usize::from(!verdict.is_yes())] += 1;
    }
    counts
}

#[test]
fn every_list_comes_to_the_two_calls() {
    let (worked, ruled) = (worked_board(), ruled_board());
    let rosters = [
        (&worked, vec![Some(0), Some(1), None, Some(2)]),
        // three rows share a key
        (&worked, vec![Some(0), Some(0), None, Some(0)]),
        (&ruled, vec![Some(0), Some(0), Some(1)]),
        (&ruled, vec![None, None, None]),
        // row 2 follows row 1, which it may not
        (&ruled, vec![Some(1), Some(0), Some(0)]),
    ];
    for (tables, held) in rosters {
        let [passed, failed] = compared(&Index::build(tables, &Roster::new(held.clone())).unwrap());
        assert!(passed > 5 && failed > 1000, "{held:?}: {passed} passed, {failed} failed");
    }
}

#[test]
fn what_does_not_fit_is_no_error() {
    let tables = worked_board();
    let index = roster_a(&tables);
    let swap = [Edit::assign(0, 1), Edit::assign(1, 0)];
    let rows = [Edit::assign(4, 0), Edit::clear(4), Edit::clear(usize::MAX)];
    // the number that stands for "empty" is no value
    let values = [Edit::assign(2, 3), Edit::assign(2, usize::MAX - 1), Edit::assign(2, usize::MAX)];
    // a required row emptied; a key that row 0 has
    let others = [Edit::clear(0), Edit::assign(2, 0)];
    for edit in rows.into_iter().chain(values).chain(others) {
        // by itself, and before and behind a list that passes
        for edits in [vec![edit], vec![edit, swap[0], swap[1]], vec![swap[0], swap[1], edit]] {
            assert_eq!(by_one_call(&index, &edits), (Verdict::No, index.clone()), "{edits:?}");
        }
    }
    for twice in [[Edit::clear(2), Edit::clear(2)], [Edit::clear(3), Edit::assign(3, 2)], [Edit::assign(3, 2), Edit::assign(3, 2)]] {
        assert_eq!(by_one_call(&index, &twice), (Verdict::No, index.clone()), "{twice:?}");
    }
    let ruled = ruled_board();
    let index = Index::build(&ruled, &Roster::new([None, Some(0), Some(1)])).unwrap();
    // not legal; not required, and still not to be empty
    for edit in [Edit::assign(1, 1), Edit::clear(2)] {
        assert_eq!(by_one_call(&index, &[edit]), (Verdict::No, index.clone()), "{edit:?}");
    }
}

#[test]
fn the_empty_list_passes() {
    let tables = worked_board();
    let crowd = Index::build(&tables, &Roster::new([Some(0), Some(0), None, Some(0)])).unwrap();
    for index in [roster_a(&tables), crowd] {
        assert_eq!(by_one_call(&index, &[]), (Verdict::Yes, index));
    }
}

#[test]
fn the_old_values_are_put_back_by_one_call() {
    let tables = worked_board();
    let index = roster_a(&tables);
    let (mut undone, mut changed) = (0, 0);
    for edits in (0..=3).flat_map(|length| lists(&tables, length)) {
        let (verdict, mut after) = by_one_call(&index, &edits);
        if verdict.is_yes() {
            let back: Vec<Edit> = edits.iter().map(|edit| Edit { value: index.roster().held(edit.row), ..*edit }).collect();
            changed += usize::from(after != index);
            assert_eq!(after.apply(&back), Ok(Verdict::Yes), "{edits:?}");
            assert_eq!(after, index, "{edits:?}");
            undone += 1;
        }
    }
    assert!(changed > 20 && undone > changed, "{changed} of {undone}");
}

/// Every move that is found: by rematch windows, by ejection windows, and by searches for each row and value.
fn moves(index: &Index<&Tables>) -> Vec<Vec<Edit>> {
    let order = index.assigned_entities_by_position(0).unwrap();
    let rematches = index.rematches(&order, Cursor::new(&order, 4).unwrap());
    let reinsertions = index.reinsertions(&order, EjectionCursor::new(&order, 3).unwrap(), None);
    let mut moves = rematches.chain(reinsertions).collect::<Result<Vec<_>, _>>().unwrap();
    for (row, value) in (0..index.tables().rows()).flat_map(|row| (0..index.tables().values()).map(move |value| (row, value))) {
        let request = Request { displacement: true, ..Request::new(row, value, 2) };
        moves.extend(index.assignment_move_for_entity_value(request).unwrap().found);
    }
    moves
}

#[test]
fn moves_keep_the_roster_sound() {
    let (worked, days) = (worked_board(), days());
    let begin = Index::build(&days, &Roster::new([Some(0), Some(1), Some(0), Some(1), Some(2), None])).unwrap();
    for mut index in [roster_a(&worked), begin] {
        assert_eq!(index.roster_sound(), Ok(Verdict::Yes));
        for round in 0..12 {
            let moves = moves(&index);
            assert!(moves.len() > 3);
            for edits in &moves {
                let (verdict, after) = by_one_call(&index, edits);
                assert_eq!((verdict, after.roster_sound()), (Verdict::Yes, Ok(Verdict::Yes)), "{edits:?}");
                assert_eq!(Index::build(index.tables(), &roster_after(&index.roster(), edits)).as_ref(), Ok(&after), "{edits:?}");
            }
            // and on from one of them, each time from another place in the list
            assert_eq!(index.apply(&moves[5 * round % moves.len()]), Ok(Verdict::Yes));
        }
    }
}

/// A yes judges what the list touches: three rows share a key before and after.
#[test]
fn a_yes_from_a_roster_that_is_not_sound() {
    let tables = worked_board();
    let mut index = Index::build(&tables, &Roster::new([Some(0), Some(0), None, Some(0)])).unwrap();
    assert_eq!(index.apply(&[Edit::assign(2, 1)]), Ok(Verdict::Yes));
    assert_eq!(index.roster(), Roster::new([Some(0), Some(0), Some(1), Some(0)]));
    assert_eq!(index.roster_sound(), Ok(Verdict::No));
    assert_eq!(index.capacity_conflicts().unwrap(), [Conflict { key: 0, rows: vec![0, 1, 3] }]);
}

#[test]
fn long_lists() {
    let mut data = TableData::blank(128, 1);
    data.legal.fill(1);
    let tables = Tables::new(&data).unwrap();
    let index = Index::build(&tables, &Roster::new([None; 128])).unwrap();
    for length in [127, 128, 129, 130, 1000] {
        let edits: Vec<Edit> = (0..length).map(|i| Edit::assign(i % 128, 0)).collect();
        let (verdict, after) = by_one_call(&index, &edits);
        assert_eq!(verdict.is_yes(), length <= 128, "{length}");
        let held = if verdict.is_yes() { length } else { 0 };
        assert_eq!(after.roster(), Roster::new((0..128).map(|row| (row < held).then_some(0))), "{length}");
        assert_eq!((verdict, after), by_two_calls(&index, &edits), "{length}");
    }
}
