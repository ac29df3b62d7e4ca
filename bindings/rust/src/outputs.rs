//! Edit lists that the engine gives back.
use crate::index::value;
use crate::Edit;

/// Two outputs of some cells each, and what an export says of them.
pub struct Outputs {
    pub rows: Vec<usize>,
    pub values: Vec<usize>,
    pub flag: u8,
    pub count: usize,
}

impl Outputs {
    pub fn new(cells: usize) -> Outputs {
        Outputs { rows: vec![0; cells], values: vec![0; cells], flag: 0, count: 0 }
    }
    /// The front of both outputs, pair by pair.
    fn pairs(&self) -> impl Iterator<Item = Edit> + '_ {
        self.rows.iter().zip(&self.values).take(self.count).map(|(&row, &number)| Edit { row, value: value(number) })
    }
    /// The list, if one was given back.
    pub fn edits(&self) -> Option<Vec<Edit>> {
        (self.flag == 1).then(|| self.pairs().collect())
    }
    /// Lists of these lengths, one behind the other.
    pub fn moves(&self, lengths: &[usize]) -> Vec<Vec<Edit>> {
        let mut pairs = self.pairs();
        lengths.iter().map(|&length| pairs.by_ref().take(length).collect()).collect()
    }
}
