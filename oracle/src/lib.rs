//! Test oracle: the nine SolverForge files, unchanged, over plain tables; and [`differ`], which puts the same questions to them and to the engine.
//!
//! The free functions build the original's state from scratch at each call;
//! [`Original`] keeps it.

pub mod differ;
pub mod sample;
pub mod tables;

mod builder;
mod heuristic;
mod phase;
mod planning;

pub use tables::{Edit, Roster, Tables};

use phase::construction::grouped_scalar::reach::Reach;

/// The index: per row what is recorded, and the three memberships, sorted by
/// key, members as the original keeps them.
#[derive(Clone, Debug, PartialEq, Eq)]
pub struct Index {
    pub values: Vec<Option<usize>>,
    pub capacity_keys: Vec<Option<usize>>,
    pub sequence_keys: Vec<Option<usize>>,
    pub required: Vec<bool>,
    pub by_capacity: Vec<(usize, Vec<usize>)>,
    pub by_value: Vec<(usize, Vec<usize>)>,
    pub by_sequence: Vec<((usize, usize), Vec<usize>)>,
}

/// A window cursor's four numbers. Of an ejection cursor the third is the attempt reached.
#[derive(Clone, Copy, Debug, PartialEq, Eq)]
pub struct Cursor {
    pub start: usize,
    pub len: usize,
    pub variant: usize,
    pub longest: usize,
}

#[derive(Clone, Copy, Debug, PartialEq, Eq)]
pub struct SearchRequest {
    pub row: usize,
    pub value: usize,
    pub depth: usize,
    pub displacement: bool,
    pub candidate_limit: Option<usize>,
    pub budget: usize,
}

/// The original's state over lent tables and roster, kept between calls.
pub struct Original<'a>(Reach<'a>);

impl<'a> Original<'a> {
    pub fn new(tables: &'a Tables, roster: &'a [Option<usize>]) -> Self {
        debug_assert!(tables.well_formed() && roster.len() == tables.rows);
        Original(Reach::new(tables, roster))
    }
    /// Builds the state again from the lent roster.
    pub fn rebuild(&mut self) {
        self.0.rebuild()
    }
    pub fn final_test(&mut self, edits: &[Edit]) -> bool {
        self.0.final_test(edits)
    }
    pub fn reinsert_test(&mut self, edits: &[Edit], row: usize, value: usize) -> bool {
        self.0.reinsert_test(edits, row, value)
    }
    pub fn search(&mut self, request: &SearchRequest) -> (Option<Vec<Edit>>, usize) {
        self.0.search(request)
    }
    /// The search without entry and final test: (produced, raw list, asks of it).
    pub fn discover(&mut self, request: &SearchRequest) -> (bool, Vec<Edit>, usize) {
        self.0.discover(request)
    }
    /// The list that a search finds, before the final test: `discover` lacks the ask at entry.
    pub fn found_list(&mut self, request: &SearchRequest) -> Option<Vec<Edit>> {
        let (found, list, _) = self.discover(&SearchRequest { budget: request.budget.checked_sub(1)?, ..*request });
        found.then_some(list)
    }
    pub fn order(&self, offset: usize) -> Vec<usize> {
        self.0.order(offset)
    }
    pub fn first_cursor(&self, offset: usize, size: usize) -> (Cursor, Vec<usize>) {
        self.0.first_cursor(offset, size)
    }
    /// All moves, each with the cursor after it.
    pub fn walk(&mut self, offset: usize, size: usize) -> Vec<(Vec<Edit>, Cursor)> {
        self.0.walk(offset, size)
    }
    pub fn walk_count(&mut self, offset: usize, size: usize) -> usize {
        self.0.walk_count(offset, size)
    }
    /// One step of the rematch cursor over any lent order.
    pub fn step(&mut self, order: &[usize], cursor: Cursor) -> (Option<Vec<Edit>>, Cursor) {
        self.0.step(order, cursor)
    }
    pub fn ejection(&mut self, window: &[usize], attempt: usize, candidate_limit: Option<usize>) -> Option<Vec<Edit>> {
        self.0.ejection(window, attempt, candidate_limit)
    }
    /// The cursor that the original's own ejection walk begins with, and its order.
    pub fn first_ejection_cursor(&self, offset: usize, size: usize) -> (Cursor, Vec<usize>) {
        self.0.first_ejection_cursor(offset, size)
    }
    /// The original's own ejection walk, which is not the rule's: all moves, each with the cursor after it, and the cursor at the end.
    pub fn own_ejections(
        &mut self,
        offset: usize,
        size: usize,
        candidate_limit: Option<usize>,
        depth: usize,
    ) -> (Vec<(Vec<Edit>, Cursor)>, Cursor) {
        self.0.own_ejections(offset, size, candidate_limit, depth)
    }
    /// One step of it over any lent order.
    pub fn own_ejection_step(
        &mut self,
        order: &[usize],
        cursor: Cursor,
        candidate_limit: Option<usize>,
        depth: usize,
    ) -> (Option<Vec<Edit>>, Cursor) {
        self.0.own_ejection_step(order, cursor, candidate_limit, depth)
    }
    pub fn conflicts(&self) -> Vec<(usize, Vec<usize>)> {
        self.0.conflicts()
    }
    /// Panics on a row out of range; a row named twice leaves stale members.
    pub fn refresh(&mut self, rows: &[Edit]) {
        self.0.refresh(rows)
    }
    pub fn index(&self) -> Index {
        self.0.index()
    }
}

/// 003: the final test of a list.
pub fn final_test(tables: &Tables, roster: &[Option<usize>], edits: &[Edit]) -> bool {
    Original::new(tables, roster).final_test(edits)
}

/// 003: the reinsertion test.
pub fn reinsert_test(tables: &Tables, roster: &[Option<usize>], edits: &[Edit], row: usize, value: usize) -> bool {
    Original::new(tables, roster).reinsert_test(edits, row, value)
}

/// 000, 001: the search by path. Ask n answers stop exactly when n > budget.
#[allow(clippy::too_many_arguments)]
pub fn search(
    tables: &Tables,
    roster: &[Option<usize>],
    row: usize,
    value: usize,
    depth: usize,
    displacement: bool,
    candidate_limit: Option<usize>,
    budget: usize,
) -> (Option<Vec<Edit>>, usize) {
    Original::new(tables, roster).search(&SearchRequest { row, value, depth, displacement, candidate_limit, budget })
}

/// 004: the rematch windows, move by move until None.
pub fn rematch_walk(tables: &Tables, roster: &[Option<usize>], offset: usize, size: usize) -> Vec<Vec<Edit>> {
    let moves = Original::new(tables, roster).walk(offset, size);
    moves.into_iter().map(|(edits, _)| edits).collect()
}

/// 004: one step of a rematch cursor over any order.
pub fn rematch_step(tables: &Tables, roster: &[Option<usize>], order: &[usize], cursor: Cursor) -> (Option<Vec<Edit>>, Cursor) {
    Original::new(tables, roster).step(order, cursor)
}

/// 004: `ejection_reinsert_edits`.
pub fn ejection_edits(
    tables: &Tables,
    roster: &[Option<usize>],
    window: &[usize],
    attempt: usize,
    candidate_limit: Option<usize>,
) -> Option<Vec<Edit>> {
    Original::new(tables, roster).ejection(window, attempt, candidate_limit)
}

/// 002: `capacity_conflicts`.
pub fn conflicts(tables: &Tables, roster: &[Option<usize>]) -> Vec<(usize, Vec<usize>)> {
    Original::new(tables, roster).conflicts()
}

/// 005, 006: the assigned rows in window order, rotated.
pub fn order(tables: &Tables, roster: &[Option<usize>], offset: usize) -> Vec<usize> {
    Original::new(tables, roster).order(offset)
}

/// 002, 007: the index after a run of refreshes, one call per list.
pub fn index_after_refresh(tables: &Tables, roster: &[Option<usize>], refreshes: &[Vec<Edit>]) -> Index {
    let mut original = Original::new(tables, roster);
    for rows in refreshes {
        original.refresh(rows);
    }
    original.index()
}
