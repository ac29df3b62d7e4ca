//! Each refusal that a caller of the safe crate can meet, by name; each of the fourteen lengths; and, by number, what an application of edits is refused for in its raw form.
use turepawon::{
    layout, raw, Cursor, Edit, EjectionCursor, Index, Order, Refusal, Request, Roster, Table, TableData, TableFault, Tables, Verdict,
};

fn fault(change: impl FnOnce(&mut TableData)) -> TableFault {
    let mut data = TableData::blank(3, 2);
    change(&mut data);
    Tables::new(&data).expect_err("must be refused")
}

type Change = fn(&mut TableData);

#[test]
fn each_length_by_itself() {
    let short: [(Table, Change); 14] = [
        (Table::Required, |d| d.required.truncate(1)),
        (Table::MayBeEmpty, |d| d.may_be_empty.truncate(1)),
        (Table::PositionGiven, |d| d.position_given.truncate(1)),
        (Table::Position, |d| d.position.truncate(1)),
        (Table::OrderGiven, |d| d.order_given.truncate(1)),
        (Table::Order, |d| d.order.truncate(1)),
        (Table::CandidateCounts, |d| d.candidate_counts.truncate(1)),
        (Table::Candidates, |d| d.candidates.truncate(1)),
        (Table::Legal, |d| d.legal.truncate(1)),
        (Table::CapacityGiven, |d| d.capacity_given.truncate(1)),
        (Table::Capacity, |d| d.capacity.truncate(1)),
        (Table::SequenceGiven, |d| d.sequence_given.truncate(1)),
        (Table::Sequence, |d| d.sequence.truncate(1)),
        (Table::Edges, |d| d.edges.truncate(1)),
    ];
    for (expected, change) in short {
        let found = fault(change);
        assert!(matches!(found, TableFault::Length { table, found: 1, .. } if table == expected), "{found:?}");
        assert_eq!(found.refusal(), Refusal::Size);
    }
}

#[test]
fn sizes_and_candidates() {
    assert_eq!(fault(|d| d.rows = 129), TableFault::Rows(129));
    assert_eq!(fault(|d| d.values = 65), TableFault::Values(65));
    assert_eq!(fault(|d| d.candidate_counts[1] = 65), TableFault::Candidates { row: 1 });
    let no_value = fault(|d| d.set_candidates(2, &[0, 2]).unwrap());
    assert_eq!((no_value, no_value.refusal()), (TableFault::Candidates { row: 2 }, Refusal::Candidates));
}

#[test]
fn rosters_lists_and_indexes() {
    let tables = Tables::new(&TableData::blank(3, 2)).unwrap();
    let roster = Roster::new([Some(0), Some(1), None]);
    assert_eq!(Index::build(&tables, &Roster::new([Some(0)])), Err(Refusal::Size.into()));
    assert_eq!(Index::build(&tables, &Roster::new([Some(2), None, None])), Err(Refusal::ValueOutOfRange.into()));
    // the number that stands for "empty" is no value
    assert_eq!(Index::build(&tables, &Roster::new([Some(usize::MAX), None, None])), Err(Refusal::ValueOutOfRange.into()));
    let mut index = Index::build(&tables, &roster).unwrap();
    let before = index.clone();
    assert_eq!(index.refresh_rows(&[Edit::clear(3)]), Err(Refusal::RowOutOfRange.into()));
    assert_eq!(index.refresh_rows(&[Edit::clear(0), Edit::clear(0)]), Err(Refusal::RowNamedTwice.into()));
    assert_eq!(index.refresh_rows(&[Edit::clear(0), Edit::assign(1, 2)]), Err(Refusal::ValueOutOfRange.into()));
    assert_eq!(index.refresh_rows(&[Edit::assign(1, usize::MAX)]), Err(Refusal::ValueOutOfRange.into()));
    assert_eq!(index, before);
    // what a refresh refuses, an application answers no to
    for edits in [vec![Edit::clear(3)], vec![Edit::clear(0), Edit::clear(0)], vec![Edit::assign(1, 2)], vec![Edit::assign(1, usize::MAX)]] {
        assert_eq!((index.apply(&edits), &index), (Ok(Verdict::No), &before), "{edits:?}");
    }
    let (records, members) = (before.cells().0.to_vec(), before.cells().1.to_vec());
    assert_eq!(Index::from_cells(&tables, records.clone(), members.clone()).as_ref(), Ok(&before));
    let mut exchanged = members.clone();
    exchanged.swap(5, 6);
    assert_eq!(Index::from_cells(&tables, records.clone(), exchanged), Err(Refusal::FalseIndex.into()));
    assert_eq!(Index::from_cells(&tables, records[1..].to_vec(), members), Err(Refusal::Size.into()));
}

/// Rows, and beside them values.
type List<'a> = [&'a [usize]; 2];

/// All that a raw application leaves: code, answer, records, members. Code and answer are those of the final test.
fn applied(lent: raw::Lent, [records, members]: [&[usize]; 2], [rows, values]: List) -> (u8, u8, Vec<usize>, Vec<usize>) {
    let (mut records_left, mut members_left, mut answer, mut asked) = (records.to_vec(), members.to_vec(), 7, 7);
    let code = raw::assignment_apply_edits(lent, &mut records_left, &mut members_left, rows, values, &mut answer);
    let expected = raw::assignment_feasible_after_edits(lent, records, members, rows, values, &mut asked);
    assert_eq!((code, answer), (expected, asked));
    (code, answer, records_left, members_left)
}

/// Three rows that may be empty, two values, all legal, key = value, the first two rows with a value each; tables and index packed.
fn packed() -> (Tables, Vec<usize>, Vec<usize>) {
    let mut board = Tables::builder(3, 2);
    for row in 0..3 {
        board.may_be_empty(row, true);
        for value in 0..2 {
            board.legal(row, value, true).capacity(row, value, value);
        }
    }
    let index = Index::build(board.build().unwrap(), &Roster::new([Some(0), Some(1), None])).unwrap();
    let (records, members) = (index.cells().0.to_vec(), index.cells().1.to_vec());
    (index.into_tables(), records, members)
}

fn with<T: Copy>(cells: &[T], at: usize, to: T) -> Vec<T> {
    let mut cells = cells.to_vec();
    cells[at] = to;
    cells
}

#[test]
fn a_refused_application_leaves_everything() {
    let (tables, records, members) = packed();
    let (lent, r, m) = (tables.lent(), &records[..], &members[..]);
    let shaped = |rows, values| raw::Lent { shape: raw::Shape { rows, values, ..lent.shape }, ..lent };
    // over 64 candidates, and one that is no value
    let first_count = layout::candidate_counts_start(3, 2);
    let (many, one) = (with(lent.marks, first_count, 65), with(lent.marks, first_count, 1));
    let no_value = with(&one, layout::candidates_start(3, 2), 2);
    let [many, no_value] = [&many, &no_value].map(|marks| raw::Lent { marks, ..lent });
    // row 0 holds what is no value, or what the other cells do not say; a member too many
    let (out_of_range, other) = (with(r, layout::held_start(3), 2), with(r, layout::held_start(3), 1));
    let crowded = with(m, layout::by_capacity_start(3), 3);
    let cases: [(u8, raw::Lent, &[usize], &[usize]); 16] = [
        (1, shaped(129, 2), r, m),
        (1, shaped(3, 65), r, m),
        (1, shaped(2, 2), r, m),
        (1, raw::Lent { marks: &lent.marks[1..], ..lent }, r, m),
        (1, raw::Lent { keys: &lent.keys[1..], ..lent }, r, m),
        (1, raw::Lent { ranks: &lent.ranks[1..], ..lent }, r, m),
        (1, lent, &r[1..], m),
        (1, lent, r, &m[1..]),
        (1, many, &out_of_range[..14], &crowded),
        (2, many, r, m),
        (2, no_value, r, m),
        (2, no_value, &out_of_range, &crowded),
        (3, lent, &out_of_range, m),
        (3, lent, &out_of_range, &crowded),
        (6, lent, &other, m),
        (6, lent, r, &crowded),
    ];
    // lists that pass, and lists that fail: for a key, a row, a row twice, a value
    let lists: [List; 6] = [[&[], &[]], [&[0, 1], &[1, 0]], [&[2], &[0]], [&[3], &[0]], [&[0, 0], &[0, 0]], [&[2], &[2]]];
    for list in lists {
        for (code, lent, records, members) in cases {
            assert_eq!(applied(lent, [records, members], list), (code, 7, records.to_vec(), members.to_vec()), "{list:?}");
        }
    }
    // list slices of different lengths are 1 as well, before all else
    let uneven: [List; 4] = [[&[0], &[]], [&[], &[0]], [&[0, 1], &[1]], [&[7], &[1, 1]]];
    for list in uneven {
        for (_, lent, records, members) in cases.into_iter().chain([(0, lent, r, m)]) {
            assert_eq!(applied(lent, [records, members], list), (1, 7, records.to_vec(), members.to_vec()), "{list:?}");
        }
    }
}

/// Of a list that is read nothing is refused: a yes writes the answer and the index, a no the answer alone.
#[test]
fn what_an_application_writes() {
    let (tables, records, members) = packed();
    let lent = tables.lent();
    let index = |held: [Option<usize>; 3]| {
        let index = Index::build(&tables, &Roster::new(held)).unwrap();
        (index.cells().0.to_vec(), index.cells().1.to_vec())
    };
    let passing: [(List, [Option<usize>; 3]); 4] = [
        ([&[], &[]], [Some(0), Some(1), None]),
        ([&[0, 1], &[1, 0]], [Some(1), Some(0), None]),
        ([&[2, 1], &[1, usize::MAX]], [Some(0), None, Some(1)]),
        ([&[1, 0], &[usize::MAX, usize::MAX]], [None, None, None]),
    ];
    for (list, held) in passing {
        let (records_after, members_after) = index(held);
        assert_eq!(applied(lent, [&records, &members], list), (0, 1, records_after, members_after), "{list:?}");
    }
    let failing: [List; 7] = [
        [&[2], &[0]],
        [&[3], &[0]],
        [&[usize::MAX], &[usize::MAX]],
        [&[2, 2], &[usize::MAX, usize::MAX]],
        [&[2], &[2]],
        [&[2], &[usize::MAX - 1]],
        [&[0, 1, 2, 0], &[1, 0, 7, 0]],
    ];
    for list in failing {
        assert_eq!(applied(lent, [&records, &members], list), (0, 0, records.clone(), members.clone()), "{list:?}");
    }
}

#[test]
fn cursors_windows_and_searches() {
    let tables = Tables::new(&TableData::blank(4, 2)).unwrap();
    let index = Index::build(&tables, &Roster::new([Some(0), Some(1), Some(0), None])).unwrap();
    let order = Order::new([0, 1, 2]);
    let fitting = Cursor::new(&order, 3).unwrap();
    let bad = [
        Cursor { start: 4, ..fitting },
        Cursor { length: 2, ..fitting },
        Cursor { length: 4, ..fitting },
        Cursor { variant: 3, ..fitting },
        Cursor { longest: 1, ..fitting },
        Cursor { longest: 4, ..fitting },
        Cursor { start: usize::MAX, ..fitting },
    ];
    for cursor in bad {
        let mut lent = cursor;
        assert_eq!(index.next_augmenting_rematch(&order, &mut lent), Err(Refusal::BadCursor.into()), "{cursor:?}");
        assert_eq!(lent, cursor);
    }
    let mut lent = fitting;
    assert_eq!(index.next_augmenting_rematch(&Order::new(vec![0; 129]), &mut lent), Err(Refusal::Size.into()));
    assert_eq!(lent, fitting);
    assert_eq!(Cursor::new(&Order::new(vec![0; 129]), 3), Err(Refusal::Size.into()));
    assert_eq!(index.ejection_reinsert_edits(&[0; 129], 0, None), Err(Refusal::Size.into()));
    assert_eq!(index.assignment_move_for_entity_value(Request::new(0, 0, 9)), Err(Refusal::TooDeep.into()));
}

#[test]
fn ejection_cursors() {
    let tables = Tables::new(&TableData::blank(4, 2)).unwrap();
    let index = Index::build(&tables, &Roster::new([Some(0), Some(1), Some(0), None])).unwrap();
    let order = Order::new([0, 1, 2]);
    let fitting = EjectionCursor::new(&order, 3).unwrap();
    let bad = [
        EjectionCursor { start: 4, ..fitting },
        EjectionCursor { length: 1, ..fitting },
        EjectionCursor { length: 4, ..fitting },
        EjectionCursor { attempt: 3, ..fitting },
        EjectionCursor { longest: 1, ..fitting },
        EjectionCursor { longest: 4, ..fitting },
        EjectionCursor { attempt: usize::MAX, ..fitting },
    ];
    for cursor in bad {
        let mut lent = cursor;
        assert_eq!(index.next_ejection_reinsert(&order, &mut lent, None), Err(Refusal::BadCursor.into()), "{cursor:?}");
        assert_eq!(lent, cursor);
    }
    let mut lent = fitting;
    assert_eq!(index.next_ejection_reinsert(&Order::new(vec![0; 129]), &mut lent, None), Err(Refusal::Size.into()));
    assert_eq!(lent, fitting);
    assert_eq!(EjectionCursor::new(&Order::new(vec![0; 129]), 3), Err(Refusal::Size.into()));
}

#[test]
fn every_number_has_a_name() {
    for number in (1..=11).chain([13, 16, 17]) {
        assert_eq!(Refusal::try_from(number).map(Refusal::number), Ok(number));
    }
    for number in (18..=255).chain([0, 12, 14, 15]) {
        assert_eq!(Refusal::try_from(number).unwrap_err().number(), number);
    }
}
