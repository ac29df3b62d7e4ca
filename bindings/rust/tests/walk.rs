//! The walk in one call, against its single steps: with every room, from every cursor that the steps come by; and what it refuses.
use turepawon::{raw, Cursor, Edit, Index, Order, Refusal, Roster, Step, TableData, Tables, Walk};

/// Six rows and six values, all legal, the key is the value: each window can be shifted, but where a row has its way.
fn board() -> Tables {
    let mut data = TableData::blank(6, 6);
    data.legal.fill(1);
    data.legal[6 + 3] = 0;
    for row in 0..6 {
        for value in 0..6 {
            data.set_capacity(row, value, Some(value)).unwrap();
        }
    }
    Tables::new(&data).expect("the board is well formed")
}

fn index(tables: &Tables) -> Index<&Tables> {
    Index::build(tables, &Roster::new((0..6).map(Some))).unwrap()
}

/// The steps from a cursor to Done: each move with the cursor behind it, and the last cursor.
fn steps(index: &Index<&Tables>, order: &Order, from: Cursor) -> (Vec<(Vec<Edit>, Cursor)>, Cursor) {
    let (mut cursor, mut moves) = (from, Vec::new());
    while let Step::Move(edits) = index.next_augmenting_rematch(order, &mut cursor).unwrap() {
        moves.push((edits, cursor));
    }
    (moves, cursor)
}

#[test]
fn every_room_gives_the_steps() {
    let tables = board();
    let index = index(&tables);
    let order = index.assigned_entities_by_position(0).unwrap();
    let first = Cursor::new(&order, 5).unwrap();
    let (moves, end) = steps(&index, &order, first);
    let edits: usize = moves.iter().map(|m| m.0.len()).sum();
    assert!(moves.len() > 5 && edits > 18);
    for room in 6..edits + 2 {
        let (mut cursor, mut found, mut calls) = (first, Vec::new(), 0);
        loop {
            let Walk { moves: some, done } = index.walk_augmenting_rematch(&order, &mut cursor, room).unwrap();
            calls += 1;
            found.extend(some);
            if done {
                break;
            }
            assert_eq!(cursor, moves[found.len() - 1].1, "room {room}");
        }
        assert!(found.iter().eq(moves.iter().map(|m| &m.0)), "room {room}");
        assert_eq!((cursor, calls == 1), (end, room >= edits), "room {room}");
    }
}

#[test]
fn every_cursor_gives_the_steps() {
    let tables = board();
    let index = index(&tables);
    let order = index.assigned_entities_by_position(2).unwrap();
    let (moves, end) = steps(&index, &order, Cursor::new(&order, 4).unwrap());
    for (_, from) in &moves {
        let (left, _) = steps(&index, &order, *from);
        let mut cursor = *from;
        let walk = index.walk_augmenting_rematch(&order, &mut cursor, 1000).unwrap();
        assert_eq!((walk, cursor), (Walk { moves: left.into_iter().map(|m| m.0).collect(), done: true }, end));
    }
    let mut cursor = end;
    assert_eq!(index.walk_augmenting_rematch(&order, &mut cursor, 6), Ok(Walk { moves: vec![], done: true }));
    assert_eq!(cursor, end);
}

#[test]
fn the_iterator_gives_the_steps() {
    let tables = board();
    let index = index(&tables);
    let order = index.assigned_entities_by_position(1).unwrap();
    let first = Cursor::new(&order, 6).unwrap();
    let (moves, end) = steps(&index, &order, first);
    for from in moves.iter().map(|m| m.1).chain([first, end]) {
        let left: Vec<_> = steps(&index, &order, from).0.into_iter().map(|m| Ok(m.0)).collect();
        assert_eq!(index.rematches(&order, from).collect::<Vec<_>>(), left);
    }
    let mut none = index.rematches(&order, Cursor { variant: 3, ..first });
    assert_eq!((none.next(), none.next(), none.next()), (Some(Err(Refusal::BadCursor.into())), None, None));
    let long = Order::new(0..129);
    assert_eq!(index.rematches(&long, first).collect::<Vec<_>>(), [Err(Refusal::Size.into())]);
}

/// All that a call of the raw form leaves: code, flag, two numbers, cursor, outputs.
fn asked(
    index: &Index<&Tables>,
    tables: &Tables,
    order: &[usize],
    from: [usize; 4],
    rooms: [usize; 3],
) -> (u8, u8, [usize; 2], [usize; 4], [Vec<usize>; 3]) {
    let (records, members) = index.cells();
    let [mut rows, mut values, mut lengths] = rooms.map(|room| vec![77; room]);
    let (mut cursor, mut done, mut moves, mut edits) = (from, 7, 77, 77);
    let code = raw::walk_augmenting_rematch(
        tables.lent(),
        records,
        members,
        order,
        &mut cursor,
        &mut rows,
        &mut values,
        &mut lengths,
        &mut done,
        &mut moves,
        &mut edits,
    );
    (code, done, [moves, edits], cursor, [rows, values, lengths])
}

#[test]
fn the_smallest_room_counts() {
    let tables = board();
    let index = index(&tables);
    let order: Vec<usize> = (0..6).collect();
    // the first windows: 0 1 2 by one place and by two, then windows with row 1, which cannot have value 3
    let whole = asked(&index, &tables, &order, [0, 3, 0, 3], [40, 40, 40]);
    assert_eq!((whole.0, whole.1), (0, 1));
    let [moves, edits] = whole.2;
    assert_eq!(whole.4[2][..moves].iter().sum::<usize>(), edits);
    assert!(whole.4.iter().zip([edits, edits, moves]).all(|(out, front)| out[front..].iter().all(|&cell| cell == 77)));
    for rooms in [[6, 40, 40], [40, 6, 40], [7, 8, 6]] {
        let some = asked(&index, &tables, &order, [0, 3, 0, 3], rooms);
        assert_eq!((some.0, some.1, some.2), (0, 0, [2, 6]), "{rooms:?}");
        for (out, (all, front)) in some.4.iter().zip(whole.4.iter().zip([6, 6, 2])) {
            assert!(out[..front] == all[..front] && out[front..].iter().all(|&cell| cell == 77), "{rooms:?}");
        }
    }
}

#[test]
fn a_refusal_leaves_everything() {
    let tables = board();
    let index = index(&tables);
    let order: Vec<usize> = (0..6).collect();
    let fits = [0, 3, 0, 6];
    let misfits = [[7, 3, 0, 6], [0, 2, 0, 6], [0, 7, 0, 6], [0, 3, 3, 6], [0, 3, 0, 1], [0, 3, 0, 7]];
    let left = |code, from, rooms: [usize; 3]| (code, 7, [77, 77], from, rooms.map(|room| vec![77; room]));
    for misfit in misfits {
        assert_eq!(asked(&index, &tables, &order, misfit, [6, 6, 6]), left(10, misfit, [6, 6, 6]));
        // 10 comes before 7
        assert_eq!(asked(&index, &tables, &order, misfit, [5, 6, 6]), left(10, misfit, [5, 6, 6]));
    }
    for rooms in [[5, 6, 6], [6, 5, 6], [6, 6, 5], [0, 0, 0]] {
        assert_eq!(asked(&index, &tables, &order, fits, rooms), left(7, fits, rooms));
    }
    assert_eq!(asked(&index, &tables, &[0; 129], fits, [6, 6, 6]), left(1, fits, [6, 6, 6]));
    let mut cursor = Cursor { start: 0, length: 3, variant: 3, longest: 6 };
    assert_eq!(index.walk_augmenting_rematch(&Order::new(0..6), &mut cursor, 6), Err(Refusal::BadCursor.into()));
    assert_eq!(cursor.variant, 3);
}
