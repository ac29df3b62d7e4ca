//! Shim of `crate::builder`: the binding whose hooks read the tables.
//!
//! By default every hook is a `fn` pointer taking the solution, as hooks of a
//! generic binding would be; with the feature `direct` the table hooks read the
//! tables in line (a lower bound for the benchmark).
use crate::heuristic::r#move::CompoundScalarEdit;
use crate::planning::{ScalarEdit, Solution};
use crate::tables::Tables;
use std::marker::PhantomData;

#[derive(Clone, Copy, Debug, Default)]
pub(crate) struct ScalarGroupLimits {
    pub(crate) value_candidate_limit: Option<usize>,
    pub(crate) group_candidate_limit: Option<usize>,
    pub(crate) max_augmenting_depth: Option<usize>,
    pub(crate) max_rematch_size: Option<usize>,
}

pub(crate) mod hooks {
    //! The tables' answers, out of range included.
    use super::Tables;

    #[inline]
    fn cell(t: &Tables, row: usize, value: usize) -> Option<usize> {
        (row < t.rows && value < t.values).then(|| row * t.values + value)
    }
    #[inline]
    pub(crate) fn required(t: &Tables, row: usize) -> bool {
        row < t.rows && t.required[row] != 0
    }
    #[inline]
    pub(crate) fn legal(t: &Tables, row: usize, value: Option<usize>) -> bool {
        match value {
            None => row < t.rows && t.may_empty[row] != 0,
            Some(value) => cell(t, row, value).is_some_and(|c| t.legal[c] != 0),
        }
    }
    #[inline]
    pub(crate) fn candidates(t: &Tables, row: usize, limit: Option<usize>) -> Vec<usize> {
        if row >= t.rows {
            return Vec::new();
        }
        let all = &t.candidates[row];
        all[..limit.map_or(all.len(), |n| n.min(all.len()))].to_vec()
    }
    #[inline]
    pub(crate) fn capacity(t: &Tables, row: usize, value: usize) -> Option<usize> {
        cell(t, row, value).and_then(|c| t.capacity[c])
    }
    #[inline]
    pub(crate) fn sequence(t: &Tables, row: usize, value: usize) -> Option<usize> {
        cell(t, row, value).and_then(|c| t.sequence[c])
    }
    #[inline]
    pub(crate) fn position(t: &Tables, row: usize) -> Option<i64> {
        if row < t.rows {
            t.position[row]
        } else {
            None
        }
    }
    #[inline]
    pub(crate) fn order(t: &Tables, row: usize) -> Option<i64> {
        if row < t.rows {
            t.order[row]
        } else {
            None
        }
    }
    #[inline]
    pub(crate) fn edge(t: &Tables, left: usize, right: usize) -> bool {
        left < t.rows && right < t.rows && t.edges[left * t.rows + right] != 0
    }
}

pub(crate) struct ScalarTarget<S>(PhantomData<S>);

impl<S> ScalarTarget<S> {
    pub(crate) fn value_is_legal(&self, _: &S, _: usize, _: Option<usize>) -> bool {
        unreachable!("ungrouped candidates are not part of the oracle")
    }
    pub(crate) fn compound_edit(&self, entity: usize, value: Option<usize>) -> CompoundScalarEdit<S> {
        CompoundScalarEdit { descriptor_index: 0, entity_index: entity, variable_index: 0, to_value: value, marker: PhantomData }
    }
}

pub(crate) struct ScalarAssignmentBinding<S> {
    entity_count: fn(&S) -> usize,
    current_value: fn(&S, usize) -> Option<usize>,
    required: fn(&S, usize) -> bool,
    legal: fn(&S, usize, Option<usize>) -> bool,
    candidates: fn(&S, usize, Option<usize>) -> Vec<usize>,
    capacity: fn(&S, usize, usize) -> Option<usize>,
    sequence: fn(&S, usize, usize) -> Option<usize>,
    position: fn(&S, usize) -> Option<i64>,
    order: fn(&S, usize) -> Option<i64>,
    edge: Option<fn(&S, usize, usize, usize, usize) -> bool>,
    target: ScalarTarget<S>,
    #[cfg(feature = "direct")]
    tables: *const Tables,
}

impl<'a> ScalarAssignmentBinding<Solution<'a>> {
    pub(crate) fn of(tables: &'a Tables) -> Self {
        fn edge(s: &Solution<'_>, l: usize, _: usize, r: usize, _: usize) -> bool {
            hooks::edge(s.tables, l, r)
        }
        Self {
            entity_count: |s| s.tables.rows,
            current_value: |s, row| s.roster.get(row).copied().flatten(),
            required: |s, row| hooks::required(s.tables, row),
            legal: |s, row, value| hooks::legal(s.tables, row, value),
            candidates: |s, row, limit| hooks::candidates(s.tables, row, limit),
            capacity: |s, row, value| hooks::capacity(s.tables, row, value),
            sequence: |s, row, value| hooks::sequence(s.tables, row, value),
            position: |s, row| hooks::position(s.tables, row),
            order: |s, row| hooks::order(s.tables, row),
            edge: tables.edge_rule.then_some(edge as _),
            target: ScalarTarget(PhantomData),
            #[cfg(feature = "direct")]
            tables,
        }
    }
}

macro_rules! hook {
    ($(fn $name:ident => $field:ident($($arg:ident: $ty:ty),*) -> $out:ty;)*) => {
        impl<S> ScalarAssignmentBinding<S> {$(
            #[inline]
            pub(crate) fn $name(&self, _solution: &S, $($arg: $ty),*) -> $out {
                #[cfg(feature = "direct")]
                // SAFETY: the binding is built from a `&'a Tables` and only ever
                // used together with a `Solution<'a>` (see `Reach`).
                return hooks::$field(unsafe { &*self.tables }, $($arg),*);
                #[cfg(not(feature = "direct"))]
                return (self.$field)(_solution, $($arg),*);
            }
        )*}
    };
}
hook! {
    fn is_required => required(row: usize) -> bool;
    fn value_is_legal => legal(row: usize, value: Option<usize>) -> bool;
    fn candidate_values => candidates(row: usize, limit: Option<usize>) -> Vec<usize>;
    fn capacity_key => capacity(row: usize, value: usize) -> Option<usize>;
    fn sequence_key => sequence(row: usize, value: usize) -> Option<usize>;
    fn position_key => position(row: usize) -> Option<i64>;
    fn entity_order_key => order(row: usize) -> Option<i64>;
}

impl<S> ScalarAssignmentBinding<S> {
    #[inline]
    pub(crate) fn entity_count(&self, solution: &S) -> usize {
        (self.entity_count)(solution)
    }
    #[inline]
    pub(crate) fn current_value(&self, solution: &S, row: usize) -> Option<usize> {
        (self.current_value)(solution, row)
    }
    #[inline]
    pub(crate) fn has_assignment_rule(&self) -> bool {
        self.edge.is_some()
    }
    #[inline]
    pub(crate) fn assignment_edge_allowed(&self, solution: &S, left: usize, left_value: usize, right: usize, right_value: usize) -> bool {
        #[cfg(feature = "direct")]
        {
            let _ = (solution, left_value, right_value);
            return self.edge.is_none() || hooks::edge(unsafe { &*self.tables }, left, right);
        }
        #[cfg(not(feature = "direct"))]
        return self.edge.is_none_or(|edge| edge(solution, left, left_value, right, right_value));
    }
    pub(crate) fn value_order_key(&self, _: &S, _: usize, _: usize) -> Option<i64> {
        None
    }
    pub(crate) fn remaining_required_count(&self, solution: &S) -> u64 {
        (0..self.entity_count(solution))
            .filter(|row| self.is_required(solution, *row) && self.current_value(solution, *row).is_none())
            .count() as u64
    }
    #[inline]
    pub(crate) fn edit(&self, row: usize, value: Option<usize>) -> ScalarEdit<S> {
        ScalarEdit::new(row, value)
    }
    #[inline]
    pub(crate) fn target(&self) -> &ScalarTarget<S> {
        &self.target
    }
}

pub(crate) mod context {
    pub(crate) use super::{ScalarAssignmentBinding, ScalarTarget};
    use crate::planning::ScalarEdit;

    /// Named by move_build.rs only; never built.
    pub(crate) struct ScalarGroupBinding<S>(ScalarTarget<S>);
    impl<S> ScalarGroupBinding<S> {
        pub(crate) fn member_for_edit(&self, _: &ScalarEdit<S>) -> Option<&ScalarTarget<S>> {
            Some(&self.0)
        }
    }

    pub(crate) struct ScalarCandidate<S> {
        reason: &'static str,
        edits: Vec<ScalarEdit<S>>,
    }
    impl<S> ScalarCandidate<S> {
        pub(crate) fn edits(&self) -> &[ScalarEdit<S>] {
            &self.edits
        }
        pub(crate) fn reason(&self) -> &'static str {
            self.reason
        }
    }
}
