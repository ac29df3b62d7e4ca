//! The walk over ejection windows, against its tries made one by one: from every cursor, with every limit that differs; and what it refuses.
use turepawon::{raw, Edit, Ejection, EjectionCursor, Index, Order, Refusal, Roster, Step, Tables};

/// Four rows, three values, all legal, all may be empty, key = value, rows 0 and 1 required.
fn worked_board() -> Tables {
    let mut board = Tables::builder(4, 3);
    for row in 0..4 {
        board.required(row, row < 2).may_be_empty(row, true).candidates(row, 0..3);
        for value in 0..3 {
            board.legal(row, value, true).capacity(row, value, value);
        }
    }
    board.build().expect("the board is well formed")
}

fn roster_a(tables: &Tables) -> Index<&Tables> {
    Index::build(tables, &Roster::new([Some(0), Some(1), None, Some(2)])).unwrap()
}

/// Six rows and four values, the key is the value. Row 2 is not required but may not be empty: a list that leaves it so fails the final test. Row 4 is required. Each of the two has one candidate.
fn board() -> Tables {
    let mut board = Tables::builder(6, 4);
    for row in 0..6 {
        board.required(row, row == 4).may_be_empty(row, row != 2).candidates(row, 0..4);
        for value in 0..4 {
            board.legal(row, value, true).capacity(row, value, value);
        }
    }
    board.candidates(2, [0]).candidates(4, [2]);
    board.build().expect("the board is well formed")
}

fn index(tables: &Tables) -> Index<&Tables> {
    Index::build(tables, &Roster::new([Some(0), Some(1), Some(3), None, Some(2), None])).unwrap()
}

/// A start, a length and an attempt, and what that try comes to by hand.
type Try = ([usize; 3], Option<Vec<Edit>>);

/// Every try of a walk, in order. A move is a list with an edit that passes the final test.
fn tries(index: &Index<&Tables>, order: &Order, longest: usize, limit: Option<usize>) -> Vec<Try> {
    let mut tries = Vec::new();
    for start in 0..order.rows().len() {
        for length in 2..=longest.min(order.rows().len() - start) {
            for attempt in 0..length {
                let list = index.ejection_reinsert_edits(&order.rows()[start..start + length], attempt, limit).unwrap();
                let found = match list {
                    Ejection::Edits(edits) if !edits.is_empty() => Some(edits),
                    _ => None,
                };
                tries.push(([start, length, attempt], found.filter(|edits| passes(index, edits))));
            }
        }
    }
    tries
}

fn passes(index: &Index<&Tables>, edits: &[Edit]) -> bool {
    index.assignment_feasible_after_edits(edits).unwrap().is_yes()
}

/// What a step from the cursor has to come to, and the cursor behind it: the first try from there on that is a move.
fn expected(tries: &[Try], count: usize, from: EjectionCursor) -> (Step, EjectionCursor) {
    let at = [from.start, from.length, from.attempt];
    let end = if from.start == count { from } else { EjectionCursor { start: count, length: 2, attempt: 0, ..from } };
    let found = tries.iter().filter(|one| one.0 >= at).find_map(|(place, edits)| edits.clone().map(|edits| (*place, edits)));
    found.map_or((Step::Done, end), |([start, length, attempt], edits)| {
        (Step::Move(edits), EjectionCursor { start, length, attempt: attempt + 1, ..from })
    })
}

/// Every cursor that fits an order of so many rows.
fn fitting(count: usize) -> impl Iterator<Item = EjectionCursor> {
    let lengths = |longest| (2..=longest).flat_map(move |length| (0..=length).map(move |attempt| (length, attempt)));
    (2..=count.max(2)).flat_map(move |longest| {
        (0..=count).flat_map(move |start| lengths(longest).map(move |(length, attempt)| EjectionCursor { start, length, attempt, longest }))
    })
}

#[test]
fn the_worked_example() {
    let tables = worked_board();
    let index = roster_a(&tables);
    let order = index.assigned_entities_by_position(0).unwrap();
    assert_eq!(order, Order::new([0, 1, 3]));
    let moved = vec![Edit::assign(1, 2), Edit::assign(3, 1)];
    for (size, longest) in [(0, 2), (2, 2), (3, 3), (4, 3), (usize::MAX, 3)] {
        let mut cursor = EjectionCursor::new(&order, size).unwrap();
        assert_eq!(cursor, EjectionCursor { start: 0, length: 2, attempt: 0, longest });
        assert_eq!(index.next_ejection_reinsert(&order, &mut cursor, None), Ok(Step::Move(moved.clone())));
        assert_eq!(cursor, EjectionCursor { start: 1, length: 2, attempt: 2, longest });
        for _ in 0..2 {
            assert_eq!(index.next_ejection_reinsert(&order, &mut cursor, None), Ok(Step::Done));
            assert_eq!(cursor, EjectionCursor { start: 3, length: 2, attempt: 0, longest });
        }
    }
}

#[test]
fn every_cursor_gives_the_tries() {
    let tables = board();
    let index = index(&tables);
    // the rows that hold a value, and lists of one's own: a row twice, one that there is not, too few for a window
    let orders = [vec![0, 1, 2, 4], vec![4, 2, 5, 0, 1], vec![1, 1, 3], vec![0, 6, 2, usize::MAX], vec![3], vec![]];
    let mut moves = 0;
    for order in orders.map(Order::new) {
        let count = order.rows().len();
        for limit in [None, Some(0), Some(1), Some(2), Some(4)] {
            for from in fitting(count) {
                let tries = tries(&index, &order, from.longest, limit);
                let mut cursor = from;
                let step = index.next_ejection_reinsert(&order, &mut cursor, limit).unwrap();
                moves += usize::from(step != Step::Done);
                assert_eq!((step, cursor), expected(&tries, count, from), "{order:?} {limit:?} {from:?}");
            }
        }
    }
    assert!(moves > 100);
}

/// The second order above has a try of each sort that is no move.
#[test]
fn what_is_no_move() {
    let tables = board();
    let index = index(&tables);
    let eject = |window: &[usize], attempt: usize| index.ejection_reinsert_edits(window, attempt, None).unwrap();
    // nothing is changed; row 4 finds no value while row 2 has none; row 2 is left empty, which it may not be
    assert_eq!((eject(&[0, 1], 0), eject(&[4, 2], 1)), (Ejection::Edits(vec![]), Ejection::None));
    assert_eq!(eject(&[2, 5], 1), Ejection::Edits(vec![Edit::clear(2)]));
    assert!(!passes(&index, &[Edit::clear(2)]));
}

#[test]
fn the_iterator_gives_the_steps() {
    let tables = board();
    let index = index(&tables);
    let order = Order::new([4, 2, 5, 0, 1]);
    for limit in [None, Some(2)] {
        let tries = tries(&index, &order, 5, limit);
        for from in fitting(5).filter(|from| from.longest == 5) {
            let at = [from.start, from.length, from.attempt];
            let left: Vec<_> = tries.iter().filter(|one| one.0 >= at).filter_map(|one| one.1.clone()).map(Ok).collect();
            assert_eq!(index.reinsertions(&order, from, limit).collect::<Vec<_>>(), left, "{limit:?} {from:?}");
        }
    }
    let first = EjectionCursor::new(&order, 5).unwrap();
    let mut none = index.reinsertions(&order, EjectionCursor { attempt: 3, ..first }, None);
    assert_eq!((none.next(), none.next(), none.next()), (Some(Err(Refusal::BadCursor.into())), None, None));
    let long = Order::new(0..129);
    assert_eq!(index.reinsertions(&long, first, None).collect::<Vec<_>>(), [Err(Refusal::Size.into())]);
}

/// All that a call of the raw form leaves: code, flag, number, cursor, outputs.
fn asked(index: &Index<&Tables>, order: &[usize], from: [usize; 4], rooms: [usize; 2]) -> (u8, u8, usize, [usize; 4], [Vec<usize>; 2]) {
    let (records, members) = index.cells();
    let [mut rows, mut values] = rooms.map(|room| vec![77; room]);
    let (mut cursor, mut moved, mut count) = (from, 7, 77);
    let lent = index.tables().lent();
    let code =
        raw::next_ejection_reinsert(lent, records, members, order, &mut cursor, usize::MAX, &mut rows, &mut values, &mut moved, &mut count);
    (code, moved, count, cursor, [rows, values])
}

#[test]
fn what_is_written() {
    let tables = worked_board();
    let index = roster_a(&tables);
    let ask = |from| asked(&index, &[0, 1, 3], from, [4, 5]);
    let given = [vec![1, 3, 77, 77], vec![2, 1, 77, 77, 77]];
    for from in [[0, 2, 0, 3], [0, 2, 2, 3], [0, 3, 3, 3], [1, 2, 0, 3], [1, 2, 1, 3]] {
        assert_eq!(ask(from), (0, 1, 2, [1, 2, 2, 3], given.clone()), "{from:?}");
    }
    // Done writes the flag and the cursor alone; where the start is at the count already, the cursor stays
    let left = || [vec![77; 4], vec![77; 5]];
    for from in [[1, 2, 2, 3], [1, 3, 0, 3], [2, 2, 0, 3]] {
        assert_eq!(ask(from), (0, 0, 77, [3, 2, 0, 3], left()), "{from:?}");
    }
    for from in [[3, 2, 0, 3], [3, 3, 1, 3], [3, 2, 2, 2]] {
        assert_eq!(ask(from), (0, 0, 77, from, left()), "{from:?}");
    }
}

#[test]
fn a_refusal_leaves_everything() {
    let tables = worked_board();
    let index = roster_a(&tables);
    let order = [0, 1, 3];
    let fits = [0, 2, 0, 3];
    // the attempt may be at the length, and no further
    let misfits = [[4, 2, 0, 3], [0, 1, 0, 3], [0, 4, 0, 3], [0, 3, 0, 2], [0, 2, 3, 3], [0, 3, 4, 3], [0, 2, 0, 1], [0, 2, 0, 4]];
    let left = |code, from, rooms: [usize; 2]| (code, 7, 77, from, rooms.map(|room| vec![77; room]));
    for misfit in misfits {
        assert_eq!(asked(&index, &order, misfit, [4, 4]), left(10, misfit, [4, 4]));
        // 10 comes before 7
        assert_eq!(asked(&index, &order, misfit, [3, 4]), left(10, misfit, [3, 4]));
    }
    for rooms in [[3, 4], [4, 3], [0, 0]] {
        assert_eq!(asked(&index, &order, fits, rooms), left(7, fits, rooms));
        // also where there is nothing to be written
        assert_eq!(asked(&index, &order, [3, 2, 0, 3], rooms), left(7, [3, 2, 0, 3], rooms));
    }
    assert_eq!(asked(&index, &[0; 129], fits, [4, 4]), left(1, fits, [4, 4]));
    let mut cursor = EjectionCursor { start: 0, length: 2, attempt: 3, longest: 3 };
    assert_eq!(index.next_ejection_reinsert(&Order::new(order), &mut cursor, None), Err(Refusal::BadCursor.into()));
    assert_eq!(cursor.attempt, 3);
    let mut cells = [7, 77, 777, 7777];
    assert_eq!((raw::new_ejection_cursor(129, 2, &mut cells), cells), (1, [7, 77, 777, 7777]));
    assert_eq!((raw::new_ejection_cursor(128, 129, &mut cells), cells), (0, [0, 2, 0, 128]));
}
