//! The vendored modules under their real names, plus small openings written
//! into the same modules (by `include!`) for what is private there.
pub(crate) mod control {
    pub(crate) const GENERATION_POLL_INTERVAL: usize = 256;
}

pub(crate) mod construction {
    #[allow(dead_code, unused_imports)]
    pub(crate) mod grouped_scalar {
        pub(super) mod assignment_candidate {
            include!("../vendor/assignment_candidate.rs");
        }
        pub(super) mod assignment_path_overlay {
            include!("../vendor/assignment_path_overlay.rs");
        }
        pub(super) mod move_build {
            include!("../vendor/move_build.rs");
        }
        pub(super) mod assignment_entity {
            include!("../vendor/assignment_entity.rs");
        }
        pub(super) mod assignment_path {
            include!("../vendor/assignment_path.rs");
        }

        pub(super) mod assignment_state {
            include!("../vendor/assignment_state.rs");

            // ---- opening (not SolverForge) ----
            impl ScalarAssignmentState {
                pub(in super::super) fn opened(&self) -> crate::Index {
                    fn sorted<K: Ord + Copy>(map: &FastMap<K, Vec<usize>>) -> Vec<(K, Vec<usize>)> {
                        let mut all = map.iter().map(|(k, v)| (*k, v.clone())).collect::<Vec<_>>();
                        all.sort();
                        all
                    }
                    crate::Index {
                        values: self.values.clone(),
                        capacity_keys: self.capacity_keys.clone(),
                        sequence_keys: self.sequence_keys.clone(),
                        required: self.required.clone(),
                        by_capacity: sorted(&self.occupancy),
                        by_value: sorted(&self.assigned_by_value),
                        by_sequence: sorted(&self.assigned_by_sequence),
                    }
                }
            }
        }

        pub(super) mod assignment_cycle {
            include!("../vendor/assignment_cycle.rs");

            // ---- openings (not SolverForge) ----
            impl CycleWindowCursor {
                pub(in super::super) fn opened_at(
                    entities: Vec<usize>,
                    cursor: crate::Cursor,
                    options: ScalarAssignmentMoveOptions,
                ) -> Self {
                    Self {
                        kind: CycleWindowKind::AugmentingRematch,
                        entities,
                        start: cursor.start,
                        len: cursor.len,
                        variant: cursor.variant,
                        max_len: cursor.longest,
                        options,
                    }
                }
                /// The other kind of cursor, at any place.
                pub(in super::super) fn opened_ejection_at(
                    entities: Vec<usize>,
                    cursor: crate::Cursor,
                    options: ScalarAssignmentMoveOptions,
                ) -> Self {
                    Self { kind: CycleWindowKind::EjectionReinsert, ..Self::opened_at(entities, cursor, options) }
                }
                pub(in super::super) fn opened(&self) -> (crate::Cursor, &[usize]) {
                    (crate::Cursor { start: self.start, len: self.len, variant: self.variant, longest: self.max_len }, &self.entities)
                }
            }
            pub(in super::super) fn opened_ejection_reinsert_edits<S: PlanningSolution>(
                group: &ScalarAssignmentBinding<S>,
                solution: &S,
                state: &mut ScalarAssignmentState,
                window: &[usize],
                attempt: usize,
                options: ScalarAssignmentMoveOptions,
            ) -> Option<Vec<(usize, Option<usize>)>> {
                ejection_reinsert_edits(group, solution, state, window, attempt, options)
            }
        }

        /// Everything the rest of the crate may ask of the originals.
        pub(crate) mod reach {
            use super::assignment_candidate::{order_candidates, AssignmentMoveIntent, ScalarAssignmentMoveOptions};
            use super::assignment_cycle::{opened_ejection_reinsert_edits, CycleWindowCursor};
            use super::assignment_entity::assigned_entities_by_position;
            use super::assignment_path::{assignment_move_for_entity_value, AssignmentPathWork, AssignmentRequest, AugmentingPathSearch};
            use super::assignment_path_overlay::AssignmentPathOverlay;
            use super::assignment_state::ScalarAssignmentState;
            use crate::builder::ScalarAssignmentBinding;
            use crate::heuristic::r#move::CompoundScalarMove;
            use crate::planning::Solution;
            use crate::{Cursor, Edit, Index, SearchRequest, Tables};
            use solverforge_core::fast_hash::FastSet;

            const NO_OPTIONS: ScalarAssignmentMoveOptions = ScalarAssignmentMoveOptions {
                value_candidate_limit: None,
                max_moves: usize::MAX,
                max_depth: 0,
                max_rematch_size: 0,
                entity_offset: 0,
                required_scarcity_ordering: false,
            };

            fn list<S>(mov: CompoundScalarMove<S>) -> Vec<Edit> {
                mov.edits().iter().map(|e| (e.entity_index, e.to_value)).collect()
            }

            /// The original's state over lent tables and roster.
            pub(crate) struct Reach<'a> {
                group: ScalarAssignmentBinding<Solution<'a>>,
                solution: Solution<'a>,
                state: ScalarAssignmentState,
            }

            impl<'a> Reach<'a> {
                pub(crate) fn new(tables: &'a Tables, roster: &'a [Option<usize>]) -> Self {
                    let group = ScalarAssignmentBinding::of(tables);
                    let solution = Solution { tables, roster };
                    let state = ScalarAssignmentState::new(&group, &solution);
                    Self { group, solution, state }
                }

                pub(crate) fn rebuild(&mut self) {
                    self.state = ScalarAssignmentState::new(&self.group, &self.solution);
                }

                pub(crate) fn final_test(&mut self, edits: &[Edit]) -> bool {
                    self.state.assignment_feasible_after_edits(&self.group, &self.solution, edits)
                }

                pub(crate) fn reinsert_test(&mut self, edits: &[Edit], row: usize, value: usize) -> bool {
                    self.state.reinsert_value_allowed(&self.group, &self.solution, edits, row, value)
                }

                fn search_parts(r: &SearchRequest) -> (AssignmentRequest, ScalarAssignmentMoveOptions, AssignmentMoveIntent) {
                    (
                        AssignmentRequest::root(r.row, r.value, r.depth),
                        ScalarAssignmentMoveOptions { value_candidate_limit: r.candidate_limit, max_depth: r.depth, ..NO_OPTIONS },
                        AssignmentMoveIntent { allow_optional_displacement: r.displacement, reason: "oracle" },
                    )
                }

                pub(crate) fn search(&mut self, r: &SearchRequest) -> (Option<Vec<Edit>>, usize) {
                    let (request, options, intent) = Self::search_parts(r);
                    let mut asks = 0usize;
                    let mut should_stop = || {
                        asks += 1;
                        asks > r.budget
                    };
                    let found = assignment_move_for_entity_value(
                        &self.group,
                        &self.solution,
                        &mut self.state,
                        request,
                        options,
                        intent,
                        &mut should_stop,
                    );
                    (found.map(list), asks)
                }

                /// `discover` alone: whether it produced, and the list as it lies
                /// there afterwards (also when it did not produce). Its asks lack
                /// the one at entry.
                pub(crate) fn discover(&mut self, r: &SearchRequest) -> (bool, Vec<Edit>, usize) {
                    let (request, options, intent) = Self::search_parts(r);
                    let mut asks = 0usize;
                    let mut should_stop = || {
                        asks += 1;
                        asks > r.budget
                    };
                    let mut overlay = AssignmentPathOverlay::default();
                    let mut visiting = FastSet::default();
                    let mut edits = Vec::new();
                    let mut blockers = Vec::new();
                    let search = AugmentingPathSearch::new(&self.group, &self.solution, options, intent);
                    let mut work = AssignmentPathWork::new(&mut overlay, &mut visiting, &mut edits, &mut blockers);
                    let produced = search.discover(&self.state, request, &mut work, &mut should_stop);
                    let raw = edits.iter().map(|e| (e.entity_index(), e.to_value())).collect();
                    (produced, raw, asks)
                }

                fn rematch_options(offset: usize, size: usize) -> ScalarAssignmentMoveOptions {
                    ScalarAssignmentMoveOptions { max_rematch_size: size, entity_offset: offset, ..NO_OPTIONS }
                }

                pub(crate) fn order(&self, offset: usize) -> Vec<usize> {
                    let mut rows = assigned_entities_by_position(&self.group, &self.solution, &self.state);
                    order_candidates(&mut rows, Self::rematch_options(offset, 0));
                    rows
                }

                pub(crate) fn first_cursor(&self, offset: usize, size: usize) -> (Cursor, Vec<usize>) {
                    let cursor =
                        CycleWindowCursor::augmenting(&self.group, &self.solution, &self.state, Self::rematch_options(offset, size));
                    let (cursor, order) = cursor.opened();
                    (cursor, order.to_vec())
                }

                /// Every move until None, each with the cursor after it.
                pub(crate) fn walk(&mut self, offset: usize, size: usize) -> Vec<(Vec<Edit>, Cursor)> {
                    let mut cursor =
                        CycleWindowCursor::augmenting(&self.group, &self.solution, &self.state, Self::rematch_options(offset, size));
                    let mut moves = Vec::new();
                    while let Some(mov) = cursor.next(&self.group, &self.solution, &mut self.state) {
                        assert_eq!(mov.reason(), "scalar_assignment_augmenting_rematch");
                        moves.push((list(mov), cursor.opened().0));
                    }
                    assert!(cursor.next(&self.group, &self.solution, &mut self.state).is_none());
                    moves
                }

                pub(crate) fn walk_count(&mut self, offset: usize, size: usize) -> usize {
                    let mut cursor =
                        CycleWindowCursor::augmenting(&self.group, &self.solution, &self.state, Self::rematch_options(offset, size));
                    let mut n = 0;
                    while cursor.next(&self.group, &self.solution, &mut self.state).is_some() {
                        n += 1;
                    }
                    n
                }

                pub(crate) fn step(&mut self, order: &[usize], at: Cursor) -> (Option<Vec<Edit>>, Cursor) {
                    let mut cursor = CycleWindowCursor::opened_at(order.to_vec(), at, NO_OPTIONS);
                    let mov = cursor.next(&self.group, &self.solution, &mut self.state);
                    (mov.map(list), cursor.opened().0)
                }

                pub(crate) fn ejection(&mut self, window: &[usize], attempt: usize, limit: Option<usize>) -> Option<Vec<Edit>> {
                    opened_ejection_reinsert_edits(
                        &self.group,
                        &self.solution,
                        &mut self.state,
                        window,
                        attempt,
                        ScalarAssignmentMoveOptions { value_candidate_limit: limit, ..NO_OPTIONS },
                    )
                }

                /// A cursor of the original's own ejection walk, as it is made.
                fn ejection_cursor(&self, offset: usize, size: usize, limit: Option<usize>, depth: usize) -> CycleWindowCursor {
                    let options = ScalarAssignmentMoveOptions {
                        value_candidate_limit: limit,
                        max_depth: depth,
                        ..Self::rematch_options(offset, size)
                    };
                    CycleWindowCursor::ejection(&self.group, &self.solution, &self.state, options)
                }

                pub(crate) fn first_ejection_cursor(&self, offset: usize, size: usize) -> (Cursor, Vec<usize>) {
                    let cursor = self.ejection_cursor(offset, size, None, 0);
                    let (at, order) = cursor.opened();
                    (at, order.to_vec())
                }

                /// Every move of the original's own ejection walk, each with the cursor after it, and the cursor that stays at the end.
                pub(crate) fn own_ejections(
                    &mut self,
                    offset: usize,
                    size: usize,
                    limit: Option<usize>,
                    depth: usize,
                ) -> (Vec<(Vec<Edit>, Cursor)>, Cursor) {
                    let mut cursor = self.ejection_cursor(offset, size, limit, depth);
                    let mut moves = Vec::new();
                    while let Some(mov) = cursor.next(&self.group, &self.solution, &mut self.state) {
                        assert_eq!(mov.reason(), "scalar_assignment_ejection_reinsert");
                        moves.push((list(mov), cursor.opened().0));
                    }
                    (moves, cursor.opened().0)
                }

                /// One step of the original's own ejection walk, from any cursor over any order.
                pub(crate) fn own_ejection_step(
                    &mut self,
                    order: &[usize],
                    at: Cursor,
                    limit: Option<usize>,
                    depth: usize,
                ) -> (Option<Vec<Edit>>, Cursor) {
                    let options = ScalarAssignmentMoveOptions { value_candidate_limit: limit, max_depth: depth, ..NO_OPTIONS };
                    let mut cursor = CycleWindowCursor::opened_ejection_at(order.to_vec(), at, options);
                    let mov = cursor.next(&self.group, &self.solution, &mut self.state);
                    (mov.map(list), cursor.opened().0)
                }

                pub(crate) fn conflicts(&self) -> Vec<(usize, Vec<usize>)> {
                    self.state.capacity_conflicts(&self.group, &self.solution).into_iter().map(|c| (c.key, c.occupants)).collect()
                }

                pub(crate) fn refresh(&mut self, rows: &[Edit]) {
                    self.state.refresh_rows(&self.group, &self.solution, rows.iter().copied());
                }

                pub(crate) fn index(&self) -> Index {
                    self.state.opened()
                }
            }
        }
    }
}
