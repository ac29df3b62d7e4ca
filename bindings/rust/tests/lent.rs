//! The two entries that are lent a struct, on the board of the worked examples: each answers what its twin over slices and numbers does.
use turepawon::{Cursor, Edit, EditRecord, Index, Order, Refusal, Roster, Step, TableData, Tables, Verdict, EMPTY};

/// Four rows, three values, all legal, all may be empty, key = value, rows 0 and 1 required.
fn board() -> Tables {
    let mut board = Tables::builder(4, 3);
    for row in 0..4 {
        board.required(row, row < 2).may_be_empty(row, true).candidates(row, 0..3);
        for value in 0..3 {
            board.legal(row, value, true).capacity(row, value, value);
        }
    }
    board.build().expect("the board is well formed")
}

fn a(tables: &Tables) -> Index<&Tables> {
    Index::build(tables, &Roster::new([Some(0), Some(1), None, Some(2)])).unwrap()
}

fn b(tables: &Tables) -> Index<&Tables> {
    Index::build(tables, &Roster::new([Some(0), Some(0), None, Some(0)])).unwrap()
}

fn records(edits: &[Edit]) -> Vec<EditRecord> {
    edits.iter().copied().map(EditRecord::from).collect()
}

#[test]
fn final_tests_of_records() {
    use Verdict::{No, Yes};
    let tables = board();
    let (a, b) = (a(&tables), b(&tables));
    let empty = Index::build(&tables, &Roster::new([None; 4])).unwrap();
    let cases: [(&Index<&Tables>, Vec<Edit>, Verdict); 11] = [
        (&a, vec![], Yes),
        (&a, vec![Edit::assign(2, 0)], No),
        (&a, vec![Edit::assign(0, 1), Edit::assign(1, 0)], Yes),
        (&a, vec![Edit::clear(0)], No),
        (&a, vec![Edit::clear(3), Edit::assign(2, 2)], Yes),
        (&a, vec![Edit::clear(2), Edit::clear(2)], No),
        (&a, vec![Edit::assign(4, 0)], No),
        (&b, vec![Edit::clear(3)], No),
        (&b, vec![Edit::assign(2, 1)], Yes),
        (&b, vec![Edit::assign(0, 0)], No),
        (&empty, vec![Edit::clear(0)], No),
    ];
    for (index, edits, verdict) in cases {
        assert_eq!(index.assignment_feasible_after_edit_records(&records(&edits)), Ok(verdict), "{edits:?}");
        assert_eq!(index.assignment_feasible_after_edits(&edits), Ok(verdict), "{edits:?}");
    }
}

#[test]
fn a_record_is_a_row_and_then_a_value() {
    let tables = board();
    let a = a(&tables);
    // row 2 with value 1 is taken by row 1; row 1 with value 2, by row 3
    assert_eq!(EditRecord::from(Edit::clear(3)), EditRecord { row: 3, value: EMPTY });
    let leave_and_take = [EditRecord { row: 3, value: EMPTY }, EditRecord { row: 1, value: 2 }];
    let exchanged = [EditRecord { row: EMPTY, value: 3 }, EditRecord { row: 2, value: 1 }];
    assert_eq!(a.assignment_feasible_after_edit_records(&leave_and_take), Ok(Verdict::Yes));
    assert_eq!(a.assignment_feasible_after_edit_records(&exchanged), Ok(Verdict::No));
}

#[test]
fn long_lists_of_records() {
    // as many rows as a board can have: all of them may be listed once, and no list is longer than that
    let mut data = TableData::blank(128, 1);
    data.legal.fill(1);
    let tables = Tables::new(&data).unwrap();
    let index = Index::build(&tables, &Roster::new([None; 128])).unwrap();
    let list = |n: usize| (0..n).map(|i| EditRecord { row: i % 128, value: 0 }).collect::<Vec<_>>();
    for (length, verdict) in [(127, Verdict::Yes), (128, Verdict::Yes), (129, Verdict::No), (130, Verdict::No), (1000, Verdict::No)] {
        assert_eq!(index.assignment_feasible_after_edit_records(&list(length)), Ok(verdict), "{length}");
        let edits: Vec<Edit> = list(length).iter().map(|r| Edit::assign(r.row, r.value)).collect();
        assert_eq!(index.assignment_feasible_after_edits(&edits), Ok(verdict), "{length}");
    }
}

#[test]
fn a_lent_cursor_is_moved_on() {
    let tables = board();
    let a = a(&tables);
    let order = a.assigned_entities_by_position(0).unwrap();
    let mut cursor = Cursor::new(&order, 2).unwrap();
    assert_eq!(a.next_augmenting_rematch_at(&order, &mut cursor), Ok(Step::Done));
    assert_eq!(cursor, Cursor { start: 3, length: 3, variant: 0, longest: 2 });
    assert_eq!(a.next_augmenting_rematch_at(&order, &mut cursor), Ok(Step::Done));
    assert_eq!(cursor, Cursor { start: 3, length: 3, variant: 0, longest: 2 });
    // both forms side by side, to Done
    let (mut lent, mut twin) = (Cursor::new(&order, 3).unwrap(), Cursor::new(&order, 3).unwrap());
    let mut moves = 0;
    loop {
        let step = a.next_augmenting_rematch_at(&order, &mut lent);
        assert_eq!(step, a.next_augmenting_rematch(&order, &mut twin));
        assert_eq!(lent, twin);
        match step.unwrap() {
            Step::Done => break,
            Step::Move(edits) => {
                moves += 1;
                assert_eq!(a.assignment_feasible_after_edit_records(&records(&edits)), Ok(Verdict::Yes));
            }
        }
    }
    assert_eq!((moves, lent), (2, Cursor { start: 3, length: 3, variant: 0, longest: 3 }));
}

#[test]
fn a_refusal_leaves_the_lent_cursor() {
    let tables = board();
    let a = a(&tables);
    let order = a.assigned_entities_by_position(0).unwrap();
    let fits = Cursor::new(&order, 3).unwrap();
    let misfits = [
        Cursor { start: 4, ..fits },
        Cursor { length: 2, ..fits },
        Cursor { length: 4, ..fits },
        Cursor { variant: 3, ..fits },
        Cursor { longest: 1, ..fits },
        Cursor { longest: 4, ..fits },
    ];
    for misfit in misfits {
        let mut cursor = misfit;
        assert_eq!(a.next_augmenting_rematch_at(&order, &mut cursor), Err(Refusal::BadCursor.into()));
        assert_eq!(cursor, misfit);
    }
    let mut cursor = fits;
    assert_eq!(a.next_augmenting_rematch_at(&Order::new(0..129), &mut cursor), Err(Refusal::Size.into()));
    assert_eq!(cursor, fits);
}

#[test]
fn refused_records_leave_the_answer() {
    let tables = board();
    let index = a(&tables);
    let (records, members) = index.cells();
    let mut short = records.to_vec();
    short.pop();
    let mut answer = 7;
    let ask = |records: &[usize], answer: &mut u8| {
        turepawon::raw::assignment_feasible_after_edit_records(&[], tables.lent(), records, members, answer)
    };
    assert_eq!((ask(&short, &mut answer), answer), (1, 7));
    let mut false_index = records.to_vec();
    false_index[0] = 1;
    assert_eq!((ask(&false_index, &mut answer), answer), (6, 7));
    assert_eq!((ask(records, &mut answer), answer), (0, 1));
}
