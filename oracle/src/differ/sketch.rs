//! A board told by what is special in it: everything else is legal, has no key, and its edges are allowed.
use crate::tables::{Roster, Tables};

#[derive(Clone, Debug)]
pub struct Row {
    pub required: bool,
    pub may_empty: bool,
    pub candidates: Vec<usize>,
    pub held: Option<usize>,
}

/// A row with no candidates.
#[derive(Clone, Copy, Debug, PartialEq, Eq)]
pub enum Bystander {
    /// Required: it stays where it is.
    Stone,
    /// Not required, and may be empty.
    Optional,
    /// Not required, and may not be empty: whoever empties it has a list that the final test refuses.
    Stuck,
}

#[derive(Clone, Debug, Default)]
pub struct Sketch {
    pub rows: Vec<Row>,
    pub values: usize,
    /// Row, value, key.
    pub capacity: Vec<(usize, usize, usize)>,
    pub sequence: Vec<(usize, usize, usize)>,
    pub illegal: Vec<(usize, usize)>,
    /// The edges that are not allowed: left, right. With one the edge rule is in force.
    pub refused: Vec<(usize, usize)>,
}

impl Sketch {
    pub fn value(&mut self) -> usize {
        self.values += 1;
        self.values - 1
    }

    /// A row more, which holds this value.
    pub fn bystander(&mut self, who: Bystander, value: usize) -> usize {
        self.rows.push(Row {
            required: who == Bystander::Stone,
            may_empty: who == Bystander::Optional,
            candidates: Vec::new(),
            held: Some(value),
        });
        self.rows.len() - 1
    }

    /// Rows that hold nothing, and values, up to so many of each.
    pub fn pad(&mut self, rows: usize, values: usize) {
        let idle = Row { required: false, may_empty: true, candidates: Vec::new(), held: None };
        self.rows.resize(rows.max(self.rows.len()), idle);
        self.values = values.max(self.values);
    }

    /// The board on which row i of the sketch has the number `rows[i]`, and value v the number `values[v]`.
    pub fn board(&self, rows: &[usize], values: &[usize]) -> (Tables, Roster) {
        let mut tables = Tables::blank(rows.len(), values.len());
        let mut roster = vec![None; rows.len()];
        for (row, &number) in self.rows.iter().zip(rows) {
            tables.required[number] = u8::from(row.required);
            tables.may_empty[number] = u8::from(row.may_empty);
            tables.candidates[number] = row.candidates.iter().map(|&value| values[value]).collect();
            roster[number] = row.held.map(|value| values[value]);
        }
        let cell = |row: usize, value: usize| rows[row] * values.len() + values[value];
        tables.legal.fill(1);
        self.illegal.iter().for_each(|&(row, value)| tables.legal[cell(row, value)] = 0);
        self.capacity.iter().for_each(|&(row, value, key)| tables.capacity[cell(row, value)] = Some(key));
        self.sequence.iter().for_each(|&(row, value, key)| tables.sequence[cell(row, value)] = Some(key));
        tables.edge_rule = !self.refused.is_empty();
        tables.edges.fill(1);
        self.refused.iter().for_each(|&(left, right)| tables.edges[rows[left] * rows.len() + rows[right]] = 0);
        (tables, roster)
    }
}
