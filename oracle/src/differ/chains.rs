//! Boards for long searches: a chain of rows, each of which wants what the next one holds; and chains of which a list is found that the final test refuses.
use super::sketch::{Bystander, Row, Sketch};
use crate::tables::{Roster, Tables};

/// How the next row stands in the way of the one before it.
#[derive(Clone, Copy, Debug, PartialEq, Eq)]
pub enum Way {
    /// It has the key.
    Key,
    /// It stands right above, and the pair is refused.
    Above,
    /// The same, right below.
    Below,
    /// It has the key and stands right above.
    Both,
}

/// Who has what the last row wants.
#[derive(Clone, Copy, Debug, PartialEq, Eq)]
pub enum End {
    Nobody,
    Bystander(Bystander),
    /// This row of the chain, which has a free candidate more: it is assigned twice.
    Chain(usize),
}

/// What a row of the chain tries before it tries what the next one holds.
#[derive(Clone, Copy, Debug, PartialEq, Eq)]
pub enum Dead {
    Nothing,
    /// What it holds itself, twice.
    Held,
    /// A value that is not legal.
    Illegal,
    /// What a row holds that cannot move.
    Taken,
    /// What a row holds that can move only to what another one holds, which cannot.
    Deep,
    /// As `Taken`, but tried behind the way on.
    Behind,
    /// A chain of other rows, each of which has what the next one holds twice among its candidates; the last has none. So the asks double with each link.
    Branches,
}

/// What the first row holds.
#[derive(Clone, Copy, Debug, PartialEq, Eq)]
pub enum Start {
    Nothing,
    Alone,
    /// A key that two others hold as well: it is left with two holders.
    Crowded,
    /// A place at which another row has a refused pair.
    Strained,
}

#[derive(Clone, Copy, Debug)]
pub struct Chain {
    /// How many rows have to make way, one behind the other.
    pub links: usize,
    /// Over how many values the links go round; 0 for a value each.
    pub round: usize,
    /// Of each link, of which there are at most nine, and of the end.
    pub ways: [Way; 10],
    pub end: End,
    pub dead: Dead,
    /// Who else is in the way at each link.
    pub beside: Option<Bystander>,
    /// A row of the chain that is not required, and whether it may be empty.
    pub optional: Option<(usize, bool)>,
    pub start: Start,
    /// Whether keys and sequences end at the last number.
    pub high: bool,
}

impl Chain {
    /// By one way, with nothing but its rows, each with a value of its own.
    pub fn plain(links: usize, way: Way) -> Chain {
        Chain {
            links,
            round: 0,
            ways: [way; 10],
            end: End::Nobody,
            dead: Dead::Nothing,
            beside: None,
            optional: None,
            start: Start::Nothing,
            high: false,
        }
    }

    /// The depth at which the first row gets what it wants, where nothing else prevents it.
    pub fn depth(&self) -> usize {
        self.links + usize::from(matches!(self.end, End::Chain(_)))
    }

    fn values(&self) -> usize {
        if self.round == 0 {
            self.links + 1
        } else {
            self.round
        }
    }

    /// The number of the key and of the place that a row holds, and its value; the first row's come behind those of the links.
    fn held(&self, row: usize) -> (usize, usize) {
        match row {
            0 => (self.links + 1, self.values()),
            _ => (row - 1, (row - 1) % self.values()),
        }
    }

    /// Where a row of the chain has what the last one wants, that is the key, under a value of its own.
    pub fn wanted(&self, row: usize) -> usize {
        match self.end {
            End::Chain(_) if row == self.links => self.values() + 1,
            _ => row % self.values(),
        }
    }

    fn key(&self, number: usize) -> usize {
        if self.high {
            usize::MAX - number
        } else {
            number
        }
    }

    /// Places of two numbers have others between them. The lowest that is used is 0 or 1, the highest of a high chain the last number.
    fn place(&self, number: usize) -> usize {
        let above = usize::from(matches!(self.end, End::Bystander(_)));
        let from = if self.high { usize::MAX - 8 * self.links - 1 - above } else { 0 };
        from + 8 * number + 1
    }

    /// What the row wants has this number.
    fn arrives(&self, sketch: &mut Sketch, way: Way, number: usize, row: usize) {
        let value = self.wanted(row);
        if matches!(way, Way::Key | Way::Both) {
            sketch.capacity.push((row, value, self.key(number)));
        }
        if way != Way::Key {
            sketch.sequence.push((row, value, self.place(number)));
        }
    }

    /// The blocker, which holds the value of this number, stands in the way of the row that wants it.
    fn stands(&self, sketch: &mut Sketch, way: Way, number: usize, [row, blocker, value]: [usize; 3]) {
        let place = self.place(number);
        if matches!(way, Way::Key | Way::Both) {
            sketch.capacity.push((blocker, value, self.key(number)));
        }
        match way {
            Way::Key => {}
            Way::Above | Way::Both => {
                sketch.sequence.push((blocker, value, place + 1));
                sketch.refused.push((row, blocker));
            }
            Way::Below => {
                sketch.sequence.push((blocker, value, place - 1));
                sketch.refused.push((blocker, row));
            }
        }
    }

    fn lay_links(&self, sketch: &mut Sketch) {
        for row in 0..self.links {
            self.arrives(sketch, self.ways[row], row, row);
            self.stands(sketch, self.ways[row], row, [row, row + 1, self.wanted(row)]);
        }
    }

    /// The last row wants what nobody has, what somebody has who is not of the chain, or what a row of the chain holds.
    fn lay_end(&self, sketch: &mut Sketch) {
        let (last, way) = (self.links, self.ways[self.links]);
        match self.end {
            End::Nobody => self.arrives(sketch, way, last, last),
            End::Bystander(who) => {
                self.arrives(sketch, way, last, last);
                let other = sketch.bystander(who, self.wanted(last));
                self.stands(sketch, way, last, [last, other, self.wanted(last)]);
            }
            End::Chain(again) => {
                let (number, value) = self.held(again);
                let key = self.key(number);
                sketch.capacity.extend([(last, self.wanted(last), key), (again, value, key)]);
                let free = sketch.value();
                sketch.rows[again].candidates.push(free);
            }
        }
    }

    fn lay_dead_ends(&self, sketch: &mut Sketch) {
        match self.dead {
            Dead::Nothing | Dead::Held => {}
            Dead::Branches => self.lay_branches(sketch),
            _ => self.lay_dead_end(sketch),
        }
    }

    fn lay_branches(&self, sketch: &mut Sketch) {
        let two = [sketch.value(), sketch.value()];
        let key = |level: usize| self.key(self.links + 2 + level);
        for level in 2..=self.links {
            let value = two[level % 2];
            let new = sketch.bystander(Bystander::Stone, value);
            sketch.capacity.extend([(new, value, key(level)), (level - 1, value, key(level))]);
            sketch.rows[level - 1].candidates.insert(0, value);
            if level > 2 {
                sketch.capacity.push((new - 1, value, key(level)));
                sketch.rows[new - 1].candidates.extend([value; 2]);
            }
        }
    }

    /// One value that the rows of the chain try in vain.
    fn lay_dead_end(&self, sketch: &mut Sketch) {
        let dead = sketch.value();
        let (key, deeper_key) = (self.key(self.links + 2), self.key(self.links + 3));
        if self.dead != Dead::Illegal {
            let stone = sketch.bystander(Bystander::Stone, dead);
            sketch.capacity.push((stone, dead, key));
            if self.dead == Dead::Deep {
                let deeper = sketch.value();
                let under = sketch.bystander(Bystander::Stone, deeper);
                sketch.rows[stone].candidates.push(deeper);
                sketch.capacity.extend([(stone, deeper, deeper_key), (under, deeper, deeper_key)]);
            }
        }
        for row in 1..=self.links {
            sketch.capacity.push((row, dead, key));
            if self.dead == Dead::Illegal {
                sketch.illegal.push((row, dead));
            }
            let at = if self.dead == Dead::Behind { sketch.rows[row].candidates.len() } else { 0 };
            sketch.rows[row].candidates.insert(at, dead);
        }
    }

    /// One row more at each link, or, where it cannot move, at the first: it has the key too, or stands at the other side, where its pair is allowed.
    fn lay_besides(&self, sketch: &mut Sketch, who: Bystander) {
        for row in 0..if who == Bystander::Stone { self.links.min(1) } else { self.links } {
            let value = self.wanted(row);
            let other = sketch.bystander(who, value);
            match self.ways[row] {
                Way::Key => sketch.capacity.push((other, value, self.key(row))),
                Way::Below => sketch.sequence.push((other, value, self.place(row) + 1)),
                Way::Above | Way::Both => sketch.sequence.push((other, value, self.place(row) - 1)),
            }
        }
    }

    fn lay_start(&self, sketch: &mut Sketch) {
        let (number, value) = self.held(0);
        let (key, place) = (self.key(number), self.place(0));
        match self.start {
            Start::Nothing | Start::Alone => {}
            Start::Crowded => {
                sketch.capacity.push((0, value, key));
                for _ in 0..2 {
                    let other = sketch.bystander(Bystander::Stone, value);
                    sketch.capacity.push((other, value, key));
                }
            }
            Start::Strained => {
                let here = sketch.bystander(Bystander::Stone, value);
                let below = sketch.bystander(Bystander::Stone, value);
                sketch.sequence.extend([(0, value, place), (here, value, place), (below, value, place - 1)]);
                sketch.refused.push((below, here));
            }
        }
    }

    fn row(&self, row: usize) -> Row {
        let holds = row != 0 || self.start != Start::Nothing || self.end == End::Chain(0);
        let value = self.held(row).1;
        let optional = self.optional.filter(|(which, _)| *which == row);
        let mut candidates = if self.dead == Dead::Held { vec![value; 2] } else { Vec::new() };
        candidates.push(self.wanted(row));
        Row {
            required: optional.is_none(),
            may_empty: optional.is_some_and(|(_, may_empty)| may_empty),
            candidates,
            held: holds.then_some(value),
        }
    }

    pub fn sketch(&self) -> Sketch {
        // behind the values of the links what the first row holds, and what the last one wants, where that is another
        let mut sketch = Sketch { values: self.values() + 2, ..Sketch::default() };
        sketch.rows.extend((0..=self.links).map(|row| self.row(row)));
        self.lay_links(&mut sketch);
        self.lay_end(&mut sketch);
        self.lay_dead_ends(&mut sketch);
        self.beside.into_iter().for_each(|who| self.lay_besides(&mut sketch, who));
        self.lay_start(&mut sketch);
        sketch
    }

    /// Row 0 wants value 0.
    pub fn board(&self) -> (Tables, Roster) {
        let sketch = self.sketch();
        sketch.board(&(0..sketch.rows.len()).collect::<Vec<_>>(), &(0..sketch.values).collect::<Vec<_>>())
    }
}

/// Which search a board was built for.
#[derive(Clone, Copy, Debug)]
pub struct Aim {
    pub row: usize,
    pub value: usize,
    pub depth: usize,
}
