//! Nothing panics, whatever it is handed: every number at every boundary, plain data whose tables have lost their cells, and a walk with any room.
use turepawon::{
    ask_ceiling, layout, Cursor, Edit, EditRecord, EjectionCursor, Error, FileFault, FileRecord, Index, Order, Refusal, Request, Roster,
    RosterFile, TableData, TableFault, Tables, Verdict,
};

/// Numbers around every limit.
const NUMBERS: [usize; 14] = [0, 1, 2, 3, 8, 9, 63, 64, 65, 127, 128, 129, usize::MAX - 1, usize::MAX];

/// A board with a move or two, and its roster.
fn index() -> Index {
    let mut board = Tables::builder(4, 4);
    for row in 0..4 {
        board.required(row, row < 2).may_be_empty(row, true).candidates(row, 0..4);
        for value in 0..4 {
            board.legal(row, value, true).capacity(row, value, value).sequence(row, value, row);
        }
    }
    Index::build(board.build().unwrap(), &Roster::new([Some(0), Some(1), Some(2), None])).unwrap()
}

#[test]
fn any_room() -> Result<(), Error> {
    let index = index();
    let order = index.assigned_entities_by_position(0)?;
    let first = Cursor::new(&order, 4)?;
    let mut cursor = first;
    let all = index.walk_augmenting_rematch(&order, &mut cursor, usize::MAX)?;
    assert!(all.done && all.moves.len() == 2);
    for room in NUMBERS {
        cursor = first;
        let walk = index.walk_augmenting_rematch(&order, &mut cursor, room);
        if room < 4 {
            assert_eq!((walk, cursor), (Err(Refusal::TooLittleRoom.into()), first), "{room}");
        } else {
            assert_eq!(walk?.moves, all.moves, "{room}");
        }
    }
    // the longest walk that there is: 128 rows, windows of all lengths, nothing in the way
    let mut data = TableData::blank(128, 2);
    data.legal.fill(1);
    let index = Index::build(Tables::new(&data)?, &Roster::new((0..128).map(|row| Some(row % 2))))?;
    let order = Order::new(0..128);
    let walk = index.walk_augmenting_rematch(&order, &mut Cursor::new(&order, usize::MAX)?, usize::MAX)?;
    assert!(walk.done);
    assert_eq!(index.rematches(&order, Cursor::new(&order, usize::MAX)?).count(), walk.moves.len());
    Ok(())
}

#[test]
fn any_number_in_a_question() {
    let mut index = index();
    let before = index.clone();
    for a in NUMBERS {
        for b in NUMBERS {
            let edits = [Edit::assign(a, b), Edit::clear(b)];
            let records = edits.map(EditRecord::from);
            let fine = index.assignment_feasible_after_edits(&edits).is_ok()
                && index.assignment_feasible_after_edit_records(&records).is_ok()
                && index.reinsert_value_allowed(&edits, a, b).is_ok()
                && index.assigned_entities_by_position(a).is_ok()
                && index.ejection_reinsert_edits(&[a, b], a, Some(b)).is_ok();
            assert!(fine, "{a} {b}");
            for depth in NUMBERS {
                let request = Request { displacement: true, limit: Some(b), budget: Some(a), ..Request::new(a, b, depth) };
                assert_eq!(index.assignment_move_for_entity_value(request).is_ok(), depth <= layout::MOST_DEPTH);
            }
            assert_eq!(ask_ceiling(a, b).is_ok(), a <= 64 && b <= 8, "{a} {b}");
            assert_eq!(index.driver_calendar(a, "20260214T081500Z").is_ok(), a < 3, "{a}");
            if index.refresh_rows(&edits).is_ok() {
                index = before.clone();
            }
            assert_eq!(index, before);
            let asked = index.assignment_feasible_after_edits(&edits);
            assert_eq!(index.apply(&edits), asked);
            if asked == Ok(Verdict::Yes) {
                index = before.clone();
            }
            assert_eq!(index, before);
        }
    }
}

#[test]
fn any_cursor_and_order() {
    let index = index();
    for a in NUMBERS {
        for b in NUMBERS {
            for at in [Cursor { start: a, length: b, variant: 0, longest: b }, Cursor { start: 0, length: 3, variant: a, longest: b }] {
                for order in [Order::new([]), Order::new([0, 1, 2]), Order::new(vec![a; 128]), Order::new(vec![b; 129])] {
                    let (mut steps, mut lent, mut walks) = (at, at, at);
                    let step = index.next_augmenting_rematch(&order, &mut steps);
                    assert_eq!(index.next_augmenting_rematch_at(&order, &mut lent), step);
                    assert_eq!(steps, lent);
                    let walk = index.walk_augmenting_rematch(&order, &mut walks, a.max(4));
                    assert_eq!(walk.map(|_| ()), step.map(|_| ()));
                    assert!(index.rematches(&order, at).take(3).count() <= 3);
                }
            }
        }
    }
}

#[test]
fn any_ejection_cursor_and_order() {
    let index = index();
    for a in NUMBERS {
        for b in NUMBERS {
            let first = EjectionCursor { start: 0, length: 2, attempt: a, longest: b };
            // over 128 rows windows of 3 at most: all of them would be 350,000 tries
            for at in [
                first,
                EjectionCursor { start: a, length: b, attempt: 0, ..first },
                EjectionCursor { start: a, longest: b.min(3), ..first },
            ] {
                let rows = if at.longest <= 3 { 128 } else { 9 };
                for order in [Order::new([]), Order::new([0, 1, 2]), Order::new(vec![a; rows]), Order::new(vec![b; 129])] {
                    let mut cursor = at;
                    let step = index.next_ejection_reinsert(&order, &mut cursor, Some(b));
                    assert!(step.is_ok() || cursor == at);
                    assert!(index.reinsertions(&order, at, None).take(3).count() <= 3);
                    assert_eq!(EjectionCursor::new(&order, a).is_ok(), order.rows().len() <= 128);
                }
            }
        }
    }
}

#[test]
fn lists_without_an_end() {
    let index = index();
    assert_eq!(Index::build(index.tables(), &Roster::new((0..usize::MAX).map(Some))), Err(Refusal::Size.into()));
    assert_eq!(Cursor::new(&Order::new(0..), 3), Err(Refusal::Size.into()));
    assert_eq!(EjectionCursor::new(&Order::new(0..), 3), Err(Refusal::Size.into()));
    let same = FileRecord { row: 0, value: 0, now: false, capacity: None, sequence: None };
    assert_eq!(RosterFile::new(std::iter::repeat(same)), Err(FileFault::PairTwice { line: 3, first: 2 }));
    let rising = (0..).map(|row| FileRecord { row, ..same });
    assert!(matches!(RosterFile::new(rising), Err(FileFault::TooLong { .. })));
}

#[test]
fn any_size_and_cell() {
    for rows in NUMBERS {
        for values in NUMBERS {
            let data = TableData::blank(rows, values);
            let size = if rows > 128 {
                Err(TableFault::Rows(rows))
            } else if values > 64 {
                Err(TableFault::Values(values))
            } else {
                Ok(())
            };
            assert_eq!(Tables::new(&data).map(|_| ()), size);
            for (row, value) in NUMBERS.into_iter().zip(NUMBERS.into_iter().rev()) {
                set_everything(data.clone(), row, value);
                // plain data can say that there are cells which there are not
                set_everything(TableData { rows: usize::MAX, values: usize::MAX, ..data.clone() }, row, value);
            }
            let mut board = Tables::builder(rows, values);
            board.legal(0, 0, true).edge(rows, values, true).candidates(0, 0..).position(rows, 1);
            assert!(board.build().is_err());
        }
    }
}

type Setter = fn(&mut TableData, usize, usize) -> Result<(), TableFault>;

/// Each setter: where it refuses, the tables are as they were.
fn set_everything(mut data: TableData, row: usize, value: usize) {
    let setters: [Setter; 9] = [
        |d, r, v| d.set_required(r, v == 0),
        |d, r, v| d.set_may_be_empty(r, v == 0),
        |d, r, v| d.set_legal(r, v, true),
        |d, r, v| d.set_capacity(r, v, Some(v)),
        |d, r, v| d.set_sequence(r, v, Some(r)),
        |d, r, _| d.set_position(r, Some(-1)),
        |d, r, _| d.set_order(r, Some(-1)),
        |d, r, v| d.set_candidates(r, &vec![0; v.min(1000)]),
        |d, r, v| d.set_edge(r, v, true),
    ];
    for setter in setters {
        let before = data.clone();
        if setter(&mut data, row, value).is_err() {
            assert!(data == before);
        }
    }
}

#[test]
fn lengths_of_any_size() {
    // sums and products that stop at the largest number, as they are meant to
    let times = |a: usize, b: usize| a.saturating_mul(b);
    for rows in NUMBERS {
        for values in NUMBERS {
            let marks = [times(69, rows), times(3, times(rows, values)), times(rows, rows)].into_iter().fold(0, usize::saturating_add);
            assert_eq!(layout::marks_length(rows, values), marks);
            assert_eq!(layout::keys_length(rows, values), times(2, times(rows, values)));
            assert_eq!(layout::ranks_length(rows), times(2, rows));
            assert_eq!(layout::records_length(rows), times(5, rows));
            assert_eq!(layout::members_length(rows), times(3, rows.saturating_add(1)));
        }
    }
}
