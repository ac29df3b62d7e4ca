//! Every example under "Rosters on the blackboard" of 01, by the original Rust.
use oracle::*;

fn board_t() -> Tables {
    let mut t = Tables::blank(4, 3);
    t.legal = vec![1; 12];
    t.may_empty = vec![1; 4];
    t.required = vec![1, 1, 0, 0];
    for r in 0..4 {
        t.candidates[r] = vec![0, 1, 2];
        for v in 0..3 {
            t.capacity[r * 3 + v] = Some(v);
        }
    }
    assert!(t.well_formed());
    t
}

const A: [Option<usize>; 4] = [Some(0), Some(1), None, Some(2)];
const B: [Option<usize>; 4] = [Some(0), Some(0), None, Some(0)];
const EMPTY: [Option<usize>; 4] = [None; 4];

fn fin(roster: &[Option<usize>], edits: &[Edit]) -> bool {
    let t = board_t();
    let yes = final_test(&t, roster, edits);
    yes
}

fn rei(roster: &[Option<usize>], edits: &[Edit], row: usize, value: usize) -> bool {
    let t = board_t();
    let yes = reinsert_test(&t, roster, edits, row, value);
    yes
}

fn sea(value: usize, depth: usize, displacement: bool, budget: usize) -> (Option<Vec<Edit>>, usize) {
    let t = board_t();
    let got = search(&t, &A, 2, value, depth, displacement, None, budget);
    got
}

#[test]
fn a_final_starred() {
    assert!(fin(&A, &[]));
    assert!(!fin(&A, &[(2, Some(0))]));
    assert!(fin(&A, &[(0, Some(1)), (1, Some(0))]));
    assert!(!fin(&A, &[(0, None)]));
    assert!(fin(&A, &[(3, None), (2, Some(2))]));
    assert!(!fin(&A, &[(2, Some(0)), (2, Some(0))]));
    assert!(!fin(&A, &[(2, None), (2, None)])); // twice, whatever the values
    assert!(!fin(&A, &[(4, Some(0))]));
    assert!(!fin(&A, &[(4, None)]));
}

#[test]
fn b_final_starred_and_conflict() {
    assert!(!fin(&B, &[(3, None)]));
    assert!(fin(&B, &[(2, Some(1))]));
    assert!(!fin(&B, &[(0, Some(0))]));
    let t = board_t();
    assert_eq!(conflicts(&t, &B), vec![(0, vec![0, 1, 3])]);
    assert!(conflicts(&t, &A).is_empty());
}

#[test]
fn all_empty_and_reinsert_starred() {
    assert!(!fin(&EMPTY, &[(0, None)]));
    assert!(rei(&EMPTY, &[(0, None), (1, Some(1))], 1, 1));
    assert!(rei(&A, &[], 2, 0));
}

#[test]
fn a_search() {
    let found = Some(vec![(3, None), (0, Some(2)), (2, Some(0))]);
    assert_eq!(sea(0, 1, true, usize::MAX), (found.clone(), 8)); // starred
    assert_eq!(sea(0, 1, true, 8), (found, 8));
    assert_eq!(sea(0, 1, true, 7), (None, 8));
    assert_eq!(sea(0, 1, true, 4), (None, 5));
    assert_eq!(sea(0, 1, true, 5), (None, 7));
    assert_eq!(sea(0, 1, true, 0), (None, 1));
    assert_eq!(sea(0, 0, true, usize::MAX), (None, 3));
    assert_eq!(sea(0, 0, false, usize::MAX), (None, 3));
    assert_eq!(sea(2, 0, true, usize::MAX), (Some(vec![(3, None), (2, Some(2))]), 3));
    assert_eq!(sea(2, 0, false, usize::MAX), (None, 3));
}

#[test]
fn a_ejection() {
    let t = board_t();
    for (window, attempt, want) in
        [(vec![0, 1], 0, vec![]), (vec![0, 3], 2, vec![(0, Some(2)), (3, Some(0))]), (vec![], 0, vec![]), (vec![], 5, vec![])]
    {
        assert_eq!(ejection_edits(&t, &A, &window, attempt, None), Some(want));
    }
}

#[test]
fn a_rematch_size_two_is_done_at_once() {
    let t = board_t();
    assert!(rematch_walk(&t, &A, 0, 2).is_empty());
    let (cursor, order) = Original::new(&t, &A).first_cursor(0, 2);
    assert_eq!(cursor, Cursor { start: 0, len: 3, variant: 0, longest: 2 });
    assert_eq!(order, vec![0, 1, 3]);
    let (m, after) = rematch_step(&t, &A, &order, cursor);
    assert_eq!(m, None);
    assert_eq!(after, Cursor { start: 3, len: 3, variant: 0, longest: 2 });
}

#[test]
fn index_of_a() {
    let t = board_t();
    let i = index_after_refresh(&t, &A, &[]);
    assert_eq!(i.by_value, vec![(0, vec![0]), (1, vec![1]), (2, vec![3])]);
    assert_eq!(i.by_capacity, vec![(0, vec![0]), (1, vec![1]), (2, vec![3])]);
    assert!(i.by_sequence.is_empty());
    let j = index_after_refresh(&t, &A, &[vec![(1, Some(0)), (3, Some(0)), (0, Some(0))]]);
    assert_eq!(j, index_after_refresh(&t, &B, &[]));
}
