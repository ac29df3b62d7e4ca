//! Building, refreshing and applying: every cell of records and members, against the original's index.
use super::super::lent::{cells_of, Lent};
use super::super::library::Library;
use super::super::question::{Act, Lists, Seen, FLAG_BEFORE};
use super::super::refusals;
use super::Guarded;
use crate::Original;

/// The original's index of the roster, which must also be the model's.
pub fn build_expected(lent: &Lent, original: &Original) -> Seen {
    let cells = cells_of(&original.index());
    assert_eq!(cells, lent.index_of(&lent.roster), "the model of the index is wrong");
    Seen { index: [cells.0, cells.1], ..Seen::before(0, [0, 0], None) }
}

pub fn build_asked(library: &dyn Library, lent: &Lent) -> Seen {
    let (mut records, mut members) = (Guarded::new(&lent.records), Guarded::new(&lent.members));
    let code = library.build_index(lent, records.inside(), members.inside());
    let spilled = records.spilled() || members.spilled();
    Seen { code, index: [records.take(), members.take()], spilled, ..Seen::before(0, [0, 0], None) }
}

/// The code of an act, and the flag of an application.
pub struct Done {
    code: u8,
    flag: u8,
}

impl Done {
    /// Whether the index was changed as the list says: a refresh leaves the flag alone, which is not 0.
    pub fn accepted(&self) -> bool {
        self.code == 0 && self.flag != 0
    }
}

/// One act by the original: an application is its final test and, on yes, its refresh, on one and the same state. What is not accepted leaves the state as it was.
pub fn act(original: &mut Original, rows: usize, values: usize, act: Act, list: &Lists) -> Done {
    let edits = list.edits();
    let done = match act {
        Act::Refresh => Done { code: refusals::list(rows, values, list), flag: FLAG_BEFORE },
        Act::Apply if list.rows.len() != list.values.len() => Done { code: 1, flag: FLAG_BEFORE },
        Act::Apply => Done { code: 0, flag: u8::from(original.final_test(&edits)) },
    };
    if done.accepted() {
        original.refresh(&edits);
    }
    done
}

/// The original's index, which must also be the one of the roster that it holds.
fn cells_now(lent: &Lent, original: &Original) -> [Vec<usize>; 2] {
    let cells = cells_of(&original.index());
    assert_eq!(cells, lent.index_of(&cells.0[..lent.rows]), "the model of the index is wrong");
    cells.into()
}

/// After each act the original's index, or, where it is not accepted, the index as it was. Leaves the original as it was.
pub fn acts_expected(lent: &Lent, original: &mut Original, acts: &[(Act, &Lists)]) -> Vec<Seen> {
    let mut now = [lent.records.clone(), lent.members.clone()];
    let mut expect = |&(what, list): &(Act, &Lists)| {
        let done = act(original, lent.rows, lent.values, what, list);
        if done.accepted() {
            now = cells_now(lent, original);
        }
        Seen { code: done.code, flag: done.flag, index: now.clone(), ..Seen::before(0, [0, 0], None) }
    };
    let seen = acts.iter().map(&mut expect).collect();
    original.rebuild();
    seen
}

pub fn acts_asked(library: &dyn Library, lent: &Lent, acts: &[(Act, &Lists)]) -> Vec<Seen> {
    let (mut records, mut members) = (Guarded::new(&lent.records), Guarded::new(&lent.members));
    let ask = |&(what, list): &(Act, &Lists)| {
        let mut flag = FLAG_BEFORE;
        let code = match what {
            Act::Refresh => library.refresh_rows(lent, records.inside(), members.inside(), list),
            Act::Apply => library.apply(lent, records.inside(), members.inside(), list, &mut flag),
        };
        let spilled = records.spilled() || members.spilled();
        Seen { code, flag, index: [records.inside().to_vec(), members.inside().to_vec()], spilled, ..Seen::before(0, [0, 0], None) }
    };
    acts.iter().map(ask).collect()
}
