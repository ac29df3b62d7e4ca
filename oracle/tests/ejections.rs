//! The walk over ejection windows by the original's parts, and the original's own: where the two are one.
use oracle::differ::boards;
use oracle::differ::entries::reinsertions::{moves, own_too, within_the_rule};
use oracle::differ::random::Random;
use oracle::differ::windows::EJECTIONS;
use oracle::sample::blackboard::{board_t, A};
use oracle::*;

/// Moves, each with the cursor behind it.
type Moves = Vec<(Vec<Edit>, Cursor)>;

/// The original's own walk from a cursor to its end.
fn own(original: &mut Original, order: &[usize], from: Cursor, limit: Option<usize>, depth: usize) -> (Moves, Cursor) {
    let (mut at, mut given) = (from, Vec::new());
    loop {
        let (list, next) = original.own_ejection_step(order, at, limit, depth);
        let Some(list) = list else { return (given, next) };
        given.push((list, next));
        at = next;
    }
}

/// What of the rule's walk the original's own has too, and where it ends.
fn kept(tables: &Tables, (mut given, end): (Moves, Cursor), order: &[usize], depth: usize) -> (Moves, Cursor) {
    let required = |row: usize| tables.required.get(row).is_some_and(|&flag| flag != 0);
    given.retain(|(list, behind)| own_too(list.len(), *behind, order, required, depth));
    (given, end)
}

/// A cursor that fits an order of so many rows.
fn cursor(random: &mut Random, count: usize) -> Cursor {
    let longest = random.between(2, count.max(2));
    let len = random.between(2, longest);
    let at = Cursor { start: random.below(count + 1), len, variant: random.below(len + 1), longest };
    assert!(EJECTIONS.fit(&at, count));
    at
}

/// A small board with mostly legal cells: the smaller ones have few moves of two edits.
fn board(random: &mut Random) -> (Tables, Roster) {
    let (rows, values) = (random.between(2, 6), random.between(1, 4));
    boards::sized(random, rows, values)
}

#[test]
fn the_example() {
    let (tables, order) = (board_t(), [0, 1, 3]);
    let mut original = Original::new(&tables, &A);
    for size in [2, 3, 4] {
        let first = EJECTIONS.first_of(order.len(), size);
        assert_eq!(original.first_ejection_cursor(0, size), (first, order.to_vec()));
        let longest = first.longest;
        let (given, end) = moves(&mut original, &order, first, None);
        let behind = Cursor { start: 1, len: 2, variant: 2, longest };
        assert_eq!(given, vec![(vec![(1, Some(2)), (3, Some(1))], behind)]);
        assert_eq!(end, Cursor { start: 3, len: 2, variant: 0, longest });
        // at depth 1 the attempt is not made
        assert_eq!(original.own_ejections(0, size, None, 1), (Vec::new(), end));
        assert_eq!(original.own_ejections(0, size, None, 2), (given, end));
    }
}

/// At depths up to 2 every move of the original's own is one of ours.
#[test]
fn one_walk_up_to_depth_two() {
    let mut random = Random::new(22);
    let mut met = 0;
    for _ in 0..20_000 {
        let (tables, roster) = board(&mut random);
        let mut original = Original::new(&tables, &roster);
        let (offset, size) = (random.below(4), random.pick(&[0, 2, 3, 4, usize::MAX]));
        let limit = random.pick(&[None, None, Some(0), Some(1), Some(2)]);
        let (first, order) = original.first_ejection_cursor(offset, size);
        assert_eq!(first, EJECTIONS.first_of(order.len(), size));
        for depth in 0..=2 {
            let given = original.own_ejections(offset, size, limit, depth);
            met += given.0.len();
            let ours = moves(&mut original, &order, first, limit);
            assert_eq!(given, kept(&tables, ours, &order, depth), "{tables:?} {roster:?}");
        }
    }
    assert!(met > 5000, "{met} moves");
}

/// From any cursor over any order, at any depth: of the original's own those with an attempt that its window has.
#[test]
fn one_walk_within_the_rule() {
    let mut random = Random::new(23);
    let (mut met, mut past) = (0, 0);
    for _ in 0..40_000 {
        let (tables, roster) = board(&mut random);
        let mut original = Original::new(&tables, &roster);
        let order: Vec<usize> = (0..random.below(6)).map(|_| random.below(tables.rows + 1)).collect();
        let (from, depth) = (cursor(&mut random, order.len()), random.below(8));
        let limit = random.pick(&[None, Some(1), Some(3)]);
        let (mut given, end) = own(&mut original, &order, from, limit, depth);
        let all = given.len();
        given.retain(|(_, behind)| within_the_rule(*behind));
        met += given.len();
        past += all - given.len();
        let ours = moves(&mut original, &order, from, limit);
        assert_eq!((given, end), kept(&tables, ours, &order, depth), "{tables:?} {roster:?} {order:?} {from:?}");
    }
    assert!(met > 1000 && past > 1000, "{met} moves, {past} past the length");
}
