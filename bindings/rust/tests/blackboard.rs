//! The worked examples, by the safe crate.
use turepawon::{Conflict, Cursor, Edit, Ejection, Index, Order, Request, Roster, Search, Step, TableBuilder, Tables, Verdict};

const NOTHING: Option<usize> = None;

/// Four rows, three values, all legal, all may be empty, key = value, rows 0 and 1 required.
fn builder() -> TableBuilder {
    let mut board = Tables::builder(4, 3);
    for row in 0..4 {
        board.required(row, row < 2).may_be_empty(row, true).candidates(row, 0..3);
        for value in 0..3 {
            board.legal(row, value, true).capacity(row, value, value);
        }
    }
    board
}

fn board() -> Tables {
    builder().build().expect("the board is well formed")
}

fn roster_a() -> Roster {
    Roster::new([Some(0), Some(1), NOTHING, Some(2)])
}

fn roster_b() -> Roster {
    Roster::new([Some(0), Some(0), NOTHING, Some(0)])
}

fn final_test(roster: &Roster, edits: &[Edit]) -> Verdict {
    Index::build(&board(), roster).unwrap().assignment_feasible_after_edits(edits).unwrap()
}

#[test]
fn final_tests() {
    use Verdict::{No, Yes};
    let (a, b) = (roster_a(), roster_b());
    assert_eq!(final_test(&a, &[]), Yes);
    assert_eq!(final_test(&a, &[Edit::assign(2, 0)]), No);
    assert_eq!(final_test(&a, &[Edit::assign(0, 1), Edit::assign(1, 0)]), Yes);
    assert_eq!(final_test(&a, &[Edit::clear(0)]), No);
    assert_eq!(final_test(&a, &[Edit::clear(3), Edit::assign(2, 2)]), Yes);
    assert_eq!(final_test(&a, &[Edit::clear(2), Edit::clear(2)]), No);
    assert_eq!(final_test(&a, &[Edit::assign(4, 0)]), No);
    assert_eq!(final_test(&b, &[Edit::clear(3)]), No);
    assert_eq!(final_test(&b, &[Edit::assign(2, 1)]), Yes);
    assert_eq!(final_test(&b, &[Edit::assign(0, 0)]), No);
}

#[test]
fn reinsertion_tests() {
    let tables = board();
    let empty = Index::build(&tables, &Roster::new([NOTHING; 4])).unwrap();
    let edits = [Edit::clear(0), Edit::assign(1, 1)];
    assert_eq!(empty.assignment_feasible_after_edits(&edits[..1]), Ok(Verdict::No));
    assert_eq!(empty.reinsert_value_allowed(&edits, 1, 1), Ok(Verdict::Yes));
    let a = Index::build(&tables, &roster_a()).unwrap();
    assert_eq!(a.reinsert_value_allowed(&[], 2, 0), Ok(Verdict::Yes));
}

#[test]
fn conflicts_and_soundness() {
    let tables = board();
    let b = Index::build(&tables, &roster_b()).unwrap();
    assert_eq!(b.capacity_conflicts().unwrap(), [Conflict { key: 0, rows: vec![0, 1, 3] }]);
    assert_eq!(b.roster_sound(), Ok(Verdict::No));
    let a = Index::build(&tables, &roster_a()).unwrap();
    assert_eq!(a.capacity_conflicts().unwrap(), []);
    assert_eq!(a.roster_sound(), Ok(Verdict::Yes));
}

/// Row 3's driver is no longer passed for it: nobody moved, and the roster is not sound. A list that leaves the row alone passes meanwhile.
#[test]
fn a_held_value_that_is_no_longer_legal() {
    let mut withdrawn = builder();
    withdrawn.legal(3, 2, false);
    let mut index = Index::build(withdrawn.build().unwrap(), &roster_a()).unwrap();
    assert_eq!(index.roster_sound(), Ok(Verdict::No));
    assert_eq!(index.apply(&[Edit::assign(0, 1), Edit::assign(1, 0)]), Ok(Verdict::Yes));
    assert_eq!(index.roster_sound(), Ok(Verdict::No));
    assert_eq!(index.apply(&[Edit::clear(3)]), Ok(Verdict::Yes));
    assert_eq!(index.roster_sound(), Ok(Verdict::Yes));
    assert_eq!(index.apply(&[Edit::assign(3, 2)]), Ok(Verdict::No));
}

/// An empty row holds nothing illegal, though it may not be empty.
#[test]
fn an_empty_row_that_may_not_be() {
    let mut board = builder();
    board.may_be_empty(2, false).legal(2, 0, false);
    let index = Index::build(board.build().unwrap(), &roster_a()).unwrap();
    assert_eq!(index.roster_sound(), Ok(Verdict::Yes));
}

#[test]
fn refreshed_is_built_afresh() {
    let tables = board();
    let mut index = Index::build(&tables, &roster_a()).unwrap();
    // loaded: no list that is applied leads to a key with three holders
    index.refresh_rows(&[Edit::assign(1, 0), Edit::assign(3, 0)]).unwrap();
    assert_eq!(index, Index::build(&tables, &roster_b()).unwrap());
}

#[test]
fn searches() {
    let tables = board();
    let a = Index::build(&tables, &roster_a()).unwrap();
    let ask = |value: usize, depth: usize, displacement: bool, budget: Option<usize>| {
        a.assignment_move_for_entity_value(Request { displacement, budget, ..Request::new(2, value, depth) }).unwrap()
    };
    let chain = Some(vec![Edit::clear(3), Edit::assign(0, 2), Edit::assign(2, 0)]);
    assert_eq!(ask(0, 1, true, None), Search { found: chain.clone(), asks: 8 });
    assert_eq!(ask(0, 1, true, Some(8)), Search { found: chain, asks: 8 });
    assert_eq!(ask(0, 1, true, Some(7)), Search { found: None, asks: 8 });
    assert_eq!(ask(0, 0, true, None), Search { found: None, asks: 3 });
    assert_eq!(ask(2, 0, true, None), Search { found: Some(vec![Edit::clear(3), Edit::assign(2, 2)]), asks: 3 });
    assert_eq!(ask(2, 0, false, None), Search { found: None, asks: 3 });
    // the number that stands for "empty" is no value
    assert_eq!(ask(usize::MAX, 1, true, None), Search { found: None, asks: 3 });
}

#[test]
fn rematches() {
    let tables = board();
    let a = Index::build(&tables, &roster_a()).unwrap();
    let order = a.assigned_entities_by_position(0).unwrap();
    assert_eq!(order, Order::new([0, 1, 3]));
    assert_eq!(a.assigned_entities_by_position(5).unwrap(), Order::new([3, 0, 1]));
    let mut cursor = Cursor::new(&order, 2).unwrap();
    assert_eq!(cursor, Cursor { start: 0, length: 3, variant: 0, longest: 2 });
    assert_eq!(a.next_augmenting_rematch(&order, &mut cursor), Ok(Step::Done));
    assert_eq!(cursor, Cursor { start: 3, length: 3, variant: 0, longest: 2 });
    let mut cursor = Cursor::new(&order, 3).unwrap();
    let round = vec![Edit::assign(0, 1), Edit::assign(1, 2), Edit::assign(3, 0)];
    assert_eq!(a.next_augmenting_rematch(&order, &mut cursor), Ok(Step::Move(round)));
    assert_eq!(cursor, Cursor { start: 0, length: 3, variant: 1, longest: 3 });
}

#[test]
fn ejections() {
    let tables = board();
    let a = Index::build(&tables, &roster_a()).unwrap();
    let eject = |window: &[usize], attempt: usize| a.ejection_reinsert_edits(window, attempt, None).unwrap();
    assert_eq!(eject(&[0, 1], 0), Ejection::Edits(vec![]));
    assert_eq!(eject(&[0, 3], 2), Ejection::Edits(vec![Edit::assign(0, 2), Edit::assign(3, 0)]));
    assert_eq!(eject(&[], 5), Ejection::Edits(vec![]));
    // a row twice: nothing is allowed, and the required row finds no value
    assert_eq!(eject(&[0, 0], 0), Ejection::None);
    assert_eq!(eject(&[3, 3], 0), Ejection::Edits(vec![Edit::clear(3), Edit::clear(3)]));
}
