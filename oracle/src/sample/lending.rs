//! What the replay is lent, and the lines that bring it from one state to the next.
use super::segments::{self, Segment};
use crate::differ::lent::Lent;
use std::fmt::Write;

/// Marks, keys, ranks, records, members, roster: the most cells that the replay keeps of each.
const ROOM: [usize; 6] = [52_000, 17_000, 400, 800, 500, 200];

/// A line that says a whole board is shorter than this many lines that change a cell.
const MANY: usize = 40;

/// The six tables as plain numbers; a rank as the number of the same 64 bits.
pub fn tables(lent: &Lent) -> [Vec<usize>; 6] {
    [
        lent.marks.iter().map(|&mark| usize::from(mark)).collect(),
        lent.keys.clone(),
        lent.ranks.iter().map(|&rank| rank as usize).collect(),
        lent.records.clone(),
        lent.members.clone(),
        lent.roster.clone(),
    ]
}

/// Slices, with the segments that say them in a line.
#[derive(Clone)]
pub struct Described {
    pub lent: Lent,
    segments: [Vec<Segment>; 6],
}

impl Described {
    pub fn plain(lent: Lent) -> Described {
        let segments = tables(&lent).map(|cells| segments::of(&cells));
        Described { lent, segments }
    }
    /// Marks, keys and ranks by their own segments, from which `lent` was made.
    pub fn tables_by(lent: Lent, by: [Vec<Segment>; 3]) -> Described {
        let mut described = Described::plain(lent);
        for (table, segments) in by.into_iter().enumerate() {
            assert_eq!(segments::expand(&segments), tables(&described.lent)[table]);
            described.segments[table] = segments;
        }
        described
    }
}

/// The state of the replay: cells behind a table's length stay as they were.
pub struct Lending {
    shape: [usize; 9],
    cells: [Vec<usize>; 6],
}

fn shape(lent: &Lent) -> [usize; 9] {
    let lengths = tables(lent).map(|cells| cells.len());
    let mut shape = [lent.rows, lent.values, usize::from(lent.edge_rule), 0, 0, 0, 0, 0, 0];
    shape[3..].copy_from_slice(&lengths);
    shape
}

fn numbers(text: &mut String, numbers: &[usize]) {
    numbers.iter().for_each(|n| write!(text, ",{n}").expect("text"));
}

impl Lending {
    pub fn nothing() -> Lending {
        Lending { shape: [0; 9], cells: ROOM.map(|room| vec![0; room]) }
    }

    /// Writes the lines after which exactly these slices are lent.
    pub fn lend(&mut self, now: &Described, text: &mut String) {
        let wanted = tables(&now.lent);
        let shape = shape(&now.lent);
        let mut changes = Vec::new();
        for (table, cells) in wanted.iter().enumerate() {
            assert!(cells.len() <= ROOM[table], "table {table} has {} cells", cells.len());
            let other = (0..cells.len()).filter(|&at| cells[at] != self.cells[table][at]);
            changes.extend(other.map(|at| (table, at, cells[at])));
        }
        if changes.len() > MANY {
            text.push('1');
            numbers(text, &shape);
            now.segments.iter().for_each(|segments| segments::write(segments, text));
            text.push_str("\r\n");
        } else {
            for (table, at, cell) in &changes {
                write!(text, "2,{table},{at},{cell}\r\n").expect("text");
            }
            if shape != self.shape {
                text.push('3');
                numbers(text, &shape);
                text.push_str("\r\n");
            }
        }
        for (table, cells) in wanted.iter().enumerate() {
            self.cells[table][..cells.len()].copy_from_slice(cells);
        }
        self.shape = shape;
    }
}
