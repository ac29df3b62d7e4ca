//! A list tested and, where it passes, applied: by one call, and by the two that it stands for, the final test and a refresh.
use crate::measure::{middle, rounds, summaries};
use crate::{keep, line, slices, Board};
use oracle::{Edit, Original};
use std::hint::black_box;
use turepawon::{raw, EMPTY};

/// A list as the entries take it.
type List = (Vec<usize>, Vec<usize>);

/// A board's index, which lists are applied to.
struct Kept<'b> {
    board: &'b Board,
    records: Vec<usize>,
    members: Vec<usize>,
}

impl Kept<'_> {
    fn of(board: &Board) -> Kept<'_> {
        Kept { board, records: board.records.clone(), members: board.members.clone() }
    }
    fn by_one_call(&mut self, (rows, values): &List) -> bool {
        let (records, members, mut answer) = (&mut self.records, &mut self.members, 2);
        assert_eq!(raw::assignment_apply_edits(self.board.packed.lent(), records, members, black_box(rows), values, &mut answer), 0);
        answer == 1
    }
    fn by_two_calls(&mut self, (rows, values): &List) -> bool {
        let (lent, records, members, mut answer) = (self.board.packed.lent(), &mut self.records, &mut self.members, 2);
        assert_eq!(raw::assignment_feasible_after_edits(lent, records, members, black_box(rows), values, &mut answer), 0);
        if answer == 1 {
            assert_eq!(raw::refresh_rows(lent, records, members, black_box(rows), values), 0);
        }
        answer == 1
    }
}

/// By the original's parts.
fn by_parts(original: &mut Original, edits: &[Edit]) -> bool {
    let passes = original.final_test(black_box(edits));
    if passes {
        original.refresh(black_box(edits));
    }
    passes
}

/// All three answer the same and leave the same, list by list.
fn compare(name: &str, board: &Board, lists: [&[Edit]; 2]) {
    let (mut original, mut one, mut two) = (board.original(), Kept::of(board), Kept::of(board));
    for edits in lists {
        let (answer, list) = (by_parts(&mut original, edits), slices(edits));
        assert_eq!([one.by_one_call(&list), two.by_two_calls(&list)], [answer; 2], "{name}");
        assert!(one.records == two.records && one.members == two.members, "{name}");
        let held = original.index().values.into_iter().map(|value| value.unwrap_or(EMPTY));
        assert!(held.eq(one.records[..board.held.len()].iter().copied()), "{name}");
    }
}

/// What is done with the first list, then with the second, then with the first again.
fn in_turn<'l, L>(lists: &'l [L; 2], mut act: impl FnMut(&'l L) -> bool + 'l) -> impl FnMut() + 'l {
    let mut calls = 0;
    move || {
        keep(act(&lists[calls % 2]));
        calls += 1;
    }
}

/// There and back again, so that every call is applied; or the same list each time, where it fails. One call is validated once, and two calls twice, where the second is made. The name tells what the one takes of the two: as called, and less the validation that the one does not make.
pub fn apply(name: &str, board: &Board, there: &[Edit]) {
    let passes = board.original().final_test(there);
    let back: Vec<Edit> = there.iter().map(|e| if passes { (e.0, board.roster[e.0]) } else { *e }).collect();
    let lists = [there, &back];
    compare(name, board, lists);
    let packed = lists.map(slices);
    let (mut original, mut one, mut two) = (board.original(), Kept::of(board), Kept::of(board));
    let validations = 1 + usize::from(passes);
    let rounds = rounds([
        &mut in_turn(&lists, |edits| by_parts(&mut original, edits)),
        &mut in_turn(&packed, |list| one.by_one_call(list)),
        &mut in_turn(&packed, |list| two.by_two_calls(list)),
        &mut || board.admit(),
        &mut || (0..validations).for_each(|_| board.admit()),
    ]);
    let called = middle(rounds.iter().map(|[_, one, two, ..]| one / two));
    let validated_once = middle(rounds.iter().map(|[_, one, two, once, each]| one / (two - (each - once))));
    let [parts, one, two, once, each] = summaries(&rounds);
    line(&format!("apply, {name}: to the two calls {called}; both validated once {validated_once}"), [parts, one, once]);
    line(&format!("apply by two calls, {name}"), [parts, two, each]);
}
