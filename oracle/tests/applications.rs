//! Refreshes and applications in turn, by the original: the state that they leave answers as one that is built from the roster that they leave.
use oracle::differ::boards;
use oracle::differ::entries::index::act;
use oracle::differ::question::{Act, Kind, Lists, Question};
use oracle::differ::questions::Asked;
use oracle::differ::random::Random;
use oracle::sample::blackboard::{board_t, A};
use oracle::*;

fn applied(original: &mut Original, edits: &[Edit]) -> bool {
    let mut list = Lists::default();
    edits.iter().for_each(|&(row, value)| list.push(row, value.unwrap_or(usize::MAX)));
    act(original, 4, 3, Act::Apply, &list).accepted()
}

#[test]
fn board_t_there_and_back() {
    let tables = board_t();
    let mut original = Original::new(&tables, &A);
    let before = original.index();
    for failing in [vec![(2, Some(0))], vec![(0, None)], vec![(4, Some(0))], vec![(2, None), (2, None)], vec![(2, Some(3))]] {
        assert!(!applied(&mut original, &failing));
        assert_eq!(original.index(), before);
    }
    assert!(applied(&mut original, &[]));
    assert_eq!(original.index(), before);
    assert!(applied(&mut original, &[(3, None), (2, Some(2))]));
    assert_eq!(original.index(), Original::new(&tables, &[Some(0), Some(1), Some(2), None]).index());
    assert!(!applied(&mut original, &[(3, Some(2))]));
    assert!(applied(&mut original, &[(2, None), (3, Some(2))]));
    assert_eq!(original.index(), before);
}

/// Some acts on a random board; how many were accepted, of those that are applications.
fn in_turn(random: &mut Random) -> usize {
    let (tables, roster, aim) = boards::any(random, 8);
    let mut original = Original::new(&tables, &roster);
    let question = Asked { tables: &tables, roster: &roster, aim }.random(random, Kind::Acts, &mut original);
    let (mut now, mut accepted) = (roster.clone(), 0);
    for (what, list) in question.acts() {
        let mut fresh = Original::new(&tables, &now);
        assert_eq!(original.index(), fresh.index());
        assert_eq!(original.final_test(&list.edits()), fresh.final_test(&list.edits()), "{tables:?} {now:?} {question:?}");
        if act(&mut original, tables.rows, tables.values, what, list).accepted() {
            accepted += usize::from(what == Act::Apply);
            now = original.index().values;
        }
    }
    accepted
}

#[test]
fn one_state_for_all_acts() {
    let mut random = Random::new(31);
    let accepted: usize = (0..20_000).map(|_| in_turn(&mut random)).sum();
    assert!(accepted > 10_000, "{accepted} lists applied");
}

/// A question is a run of acts, and is put as so many calls.
#[test]
fn acts_and_calls() {
    let list = |row| Lists { rows: vec![row], values: vec![0] };
    let run = Question::Acts(vec![(Act::Apply, list(0)), (Act::Refresh, list(1))]);
    assert_eq!(run.calls(), vec![Question::Apply(list(0)), Question::Refresh(vec![list(1)])]);
    assert_eq!(Question::Refresh(vec![list(0), list(1)]).calls().len(), 2);
    assert_eq!(Question::Apply(list(2)).calls(), vec![Question::Apply(list(2))]);
}
