//! What the entries write to.

/// Two outputs of 128 cells, and what is said of them.
pub struct Out {
    pub rows: [usize; 128],
    pub values: [usize; 128],
    pub flag: u8,
    pub asks: usize,
    pub count: usize,
}

impl Out {
    pub fn new() -> Out {
        Out { rows: [0; 128], values: [0; 128], flag: 0, asks: 0, count: 0 }
    }
    /// The list, if one was given back.
    pub fn edits(&self) -> Option<Vec<oracle::Edit>> {
        let pair = |i: usize| (self.rows[i], (self.values[i] != usize::MAX).then_some(self.values[i]));
        (self.flag == 1).then(|| (0..self.count).map(pair).collect())
    }
}

/// The three outputs of a walk in one call, and what is said of them.
pub struct Walked {
    pub rows: Vec<usize>,
    pub values: Vec<usize>,
    pub lengths: Vec<usize>,
    pub done: u8,
    pub moves: usize,
    pub edits: usize,
}

impl Walked {
    pub fn new(room: usize) -> Walked {
        Walked { rows: vec![0; room], values: vec![0; room], lengths: vec![0; room], done: 0, moves: 0, edits: 0 }
    }
    /// The moves that were written.
    pub fn list(&self) -> Vec<Vec<oracle::Edit>> {
        let pair = |at: usize| (self.rows[at], (self.values[at] != usize::MAX).then_some(self.values[at]));
        let mut places = 0..self.edits;
        self.lengths[..self.moves].iter().map(|&length| places.by_ref().take(length).map(pair).collect()).collect()
    }
}
