//! Each table stands where the library reads it: a cell of each decides an answer. And the index stands where `layout` says.
use turepawon::{layout, raw, Edit, Ejection, Error, Index, Order, Roster, TableBuilder, Tables, Verdict, EMPTY};

/// Three rows, two values, all legal, nothing else.
fn board() -> TableBuilder {
    let mut board = Tables::builder(3, 2);
    for row in 0..3 {
        board.legal(row, 0, true).legal(row, 1, true);
    }
    board
}

fn asked(board: &TableBuilder, held: [Option<usize>; 3], edits: &[Edit]) -> Verdict {
    Index::build(board.build().unwrap(), &Roster::new(held)).unwrap().assignment_feasible_after_edits(edits).unwrap()
}

#[test]
fn flags_of_rows_and_legality() {
    let (held, leave) = ([None, Some(0), None], [Edit::clear(1)]);
    assert_eq!(asked(&board(), held, &leave), Verdict::No);
    assert_eq!(asked(board().may_be_empty(1, true), held, &leave), Verdict::Yes);
    assert_eq!(asked(board().may_be_empty(1, true).required(1, true), held, &leave), Verdict::No);
    assert_eq!(asked(board().may_be_empty(1, true).required(0, true).required(2, true), held, &leave), Verdict::Yes);
    assert_eq!(asked(&board(), held, &[Edit::assign(2, 1)]), Verdict::Yes);
    assert_eq!(asked(board().legal(2, 1, false), held, &[Edit::assign(2, 1)]), Verdict::No);
    assert_eq!(asked(board().legal(2, 0, false).legal(1, 1, false), held, &[Edit::assign(2, 1)]), Verdict::Yes);
}

#[test]
fn positions_and_orders() -> Result<(), Error> {
    let order = |board: &TableBuilder| {
        Index::build(board.build()?, &Roster::new([Some(0); 3])).and_then(|index| index.assigned_entities_by_position(0))
    };
    assert_eq!(order(&board())?, Order::new([0, 1, 2]));
    assert_eq!(order(board().position(0, i64::MAX).position(1, i64::MIN))?, Order::new([2, 1, 0]));
    assert_eq!(order(board().order(0, 5).order(1, -5))?, Order::new([2, 1, 0]));
    assert_eq!(order(board().position(0, 1).position(1, 1).position(2, 0).order(0, 2).order(1, 1))?, Order::new([2, 1, 0]));
    assert_eq!(order(board().position(0, 1).position(0, None))?, Order::new([0, 1, 2]));
    Ok(())
}

#[test]
fn candidates_and_capacities() -> Result<(), Error> {
    let mut keyed = board();
    keyed.required(2, true).candidates(2, [1, 0]).capacity(0, 1, usize::MAX).capacity(2, 1, usize::MAX).capacity(2, 0, 0);
    let eject = |board: &TableBuilder, limit| {
        Index::build(board.build()?, &Roster::new([Some(1), None, None])).and_then(|index| index.ejection_reinsert_edits(&[2], 0, limit))
    };
    assert_eq!(eject(&keyed, None)?, Ejection::Edits(vec![Edit::assign(2, 0)]));
    assert_eq!(eject(&keyed, Some(1))?, Ejection::None);
    assert_eq!(eject(keyed.clone().capacity(0, 1, None), None)?, Ejection::Edits(vec![Edit::assign(2, 1)]));
    assert_eq!(eject(keyed.clone().capacity(0, 1, 7), None)?, Ejection::Edits(vec![Edit::assign(2, 1)]));
    assert_eq!(eject(keyed.clone().candidates(2, []), None)?, Ejection::None);
    Ok(())
}

#[test]
fn sequences_and_edges() {
    let mut days = board();
    days.edge_rule(true).sequence(0, 1, 4).sequence(1, 1, 5).sequence(2, 0, 5);
    let (held, take) = ([Some(1), None, None], [Edit::assign(1, 1)]);
    assert_eq!(asked(&days, held, &take), Verdict::No);
    assert_eq!(asked(days.clone().edge(0, 1, true), held, &take), Verdict::Yes);
    assert_eq!(asked(days.clone().edge(1, 0, true).edge(0, 2, true), held, &take), Verdict::No);
    assert_eq!(asked(days.clone().edge_rule(false), held, &take), Verdict::Yes);
    assert_eq!(asked(days.clone().sequence(1, 1, 6), held, &take), Verdict::Yes);
    assert_eq!(asked(days.clone().sequence(0, 1, None), held, &take), Verdict::Yes);
}

#[test]
fn the_index_by_its_columns() -> Result<(), Error> {
    let mut board = board();
    board.capacity(0, 1, 30).capacity(2, 0, 20).sequence(1, 0, 9).sequence(2, 0, 8);
    let index = Index::build(board.build()?, &Roster::new([Some(1), Some(0), Some(0)]))?;
    let (records, members) = index.cells();
    let column = |start: usize| &records[start..start + 3];
    assert_eq!(column(layout::held_start(3)), [1, 0, 0]);
    assert_eq!(column(layout::held_capacity_given_start(3)), [1, 0, 1]);
    assert_eq!(column(layout::held_capacity_start(3)), [30, 0, 20]);
    assert_eq!(column(layout::held_sequence_given_start(3)), [0, 1, 1]);
    assert_eq!(column(layout::held_sequence_start(3)), [0, 9, 8]);
    assert_eq!(records.len(), layout::records_length(3));
    let part = |start: usize| &members[start..start + 4];
    assert_eq!(part(layout::by_capacity_start(3)), [2, 2, 0, 0]);
    assert_eq!(part(layout::by_value_start(3)), [3, 1, 2, 0]);
    assert_eq!(part(layout::by_sequence_start(3)), [2, 2, 1, 0]);
    assert_eq!(members.len(), layout::members_length(3));
    Ok(())
}

#[test]
fn what_is_packed_is_taken() {
    for (rows, values) in [(0, 0), (1, 0), (0, 1), (1, 1), (3, 2), (127, 64), (128, 63), (128, 64)] {
        let mut board = Tables::builder(rows, values);
        for row in 0..rows {
            board.candidates(row, 0..values).position(row, -1).order(row, 1).required(row, true);
        }
        let tables = board.build().unwrap();
        assert_eq!(raw::tables_refusal(tables.lent()), 0, "{rows} rows, {values} values");
        let lent = tables.lent();
        let long = layout::marks_length(rows, values);
        assert_eq!((lent.marks.len(), lent.keys.len(), lent.ranks.len()), (long, layout::keys_length(rows, values), 2 * rows));
        assert!(Index::build(&tables, &Roster::new(vec![None; rows])).is_ok());
    }
}

#[test]
fn lookups_of_tables() {
    let tables = board().capacity(1, 0, EMPTY).sequence(2, 1, 0).legal(0, 1, false).build().unwrap();
    assert_eq!(
        [(0, 0), (0, 1), (3, 0), (0, 2), (usize::MAX, usize::MAX)].map(|(r, v)| tables.value_is_legal(r, v)),
        [true, false, false, false, false]
    );
    assert_eq!([(1, 0), (1, 1), (3, 0)].map(|(r, v)| tables.capacity_key(r, v)), [Some(EMPTY), None, None]);
    assert_eq!([(2, 1), (2, 0), (2, 2)].map(|(r, v)| tables.sequence_key(r, v)), [Some(0), None, None]);
}
