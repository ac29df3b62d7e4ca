//! Large boards, whose tables the list says by palettes: a cell each would fill megabytes.
use super::lending::Described;
use super::segments::{expand, Segment};
use crate::differ::boards;
use crate::differ::lent::{number_of, Lent};
use crate::differ::random::Random;
use crate::tables::Roster;

const LAST: usize = usize::MAX;

/// A palette with one chance in so many of a 0, of flags that are yes in several ways.
fn flags(random: &mut Random) -> Vec<usize> {
    random.pick(&[&[1usize, 255][..], &[0, 1], &[0, 1, 2, 128, 255], &[0, 1, 1, 1, 1, 1, 1, 1, 1, 2], &[0, 0, 0, 1]]).to_vec()
}

fn keys(random: &mut Random, rows: usize) -> Vec<usize> {
    match random.below(4) {
        0 => vec![0, 1, LAST - 1, LAST],
        1 => (0..rows / 2 + 1).collect(),
        2 => (0..400).map(|k| k * 7).collect(),
        _ => vec![0, 1, 2, 3, LAST],
    }
}

fn ranks() -> Vec<usize> {
    [-1i64, 0, 1, 2, 3, i64::MIN, i64::MAX].map(|rank| rank as usize).to_vec()
}

fn pick(random: &mut Random, cells: usize, palette: Vec<usize>) -> Segment {
    Segment::Pick { cells, seed: random.below(1 << 31), palette }
}

fn marks(random: &mut Random, rows: usize, values: usize) -> Vec<Segment> {
    let cells = rows * values;
    let counts = if values == 0 { vec![0] } else { random.pick(&[&[0usize, 1, 2, 3, 64][..], &[2, 3], &[64], &[8, 63]]).to_vec() };
    let candidates = (0..values.max(1)).collect();
    let mut segments = Vec::new();
    // required, may be empty, position given, order given
    for _ in 0..4 {
        let palette = flags(random);
        segments.push(pick(random, rows, palette));
    }
    segments.push(pick(random, rows, counts));
    segments.push(pick(random, 64 * rows, candidates));
    for _ in 0..3 {
        let palette = flags(random);
        segments.push(pick(random, cells, palette));
    }
    let palette = flags(random);
    segments.push(pick(random, rows * rows, palette));
    segments
}

/// A board of this size: tables by palettes, a roster as on small boards, and its index.
pub fn board(random: &mut Random, rows: usize, values: usize) -> (Described, Roster) {
    let cells = rows * values;
    let marks = marks(random, rows, values);
    let (capacity, sequence) = (keys(random, rows), keys(random, rows));
    let keys = vec![pick(random, cells, capacity), pick(random, cells, sequence)];
    let ranks = vec![pick(random, rows, ranks()), pick(random, rows, ranks())];
    let mut lent = Lent {
        rows,
        values,
        edge_rule: random.pick(&[0, 1, 255]),
        marks: expand(&marks).iter().map(|&mark| mark as u8).collect(),
        keys: expand(&keys),
        ranks: expand(&ranks).iter().map(|&rank| rank as i64).collect(),
        records: Vec::new(),
        members: Vec::new(),
        roster: Vec::new(),
    };
    let roster = boards::roster(random, &lent.unpack());
    lent.roster = roster.iter().map(|&value| number_of(value)).collect();
    (lent.records, lent.members) = lent.index_of(&lent.roster);
    (Described::tables_by(lent, [marks, keys, ranks]), roster)
}
