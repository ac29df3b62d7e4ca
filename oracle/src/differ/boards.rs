//! Random boards: of every size around each boundary, with every style of keys, edges, candidates and rosters; and random chains.
use super::chains::{Aim, Chain, Dead, End, Start, Way};
use super::objects::{day, LATE};
use super::random::Random;
use super::sketch::Bystander;
use crate::tables::{Roster, Tables};

const LAST: usize = usize::MAX;

fn size(random: &mut Random) -> (usize, usize) {
    match random.below(1000) {
        0..=29 => (random.pick(&[127, 128]), random.pick(&[0, 1, 2, 8, 63, 64])),
        30..=49 => (random.between(13, 40), random.pick(&[1, 2, 5, 12, 63, 64])),
        50..=109 => (random.between(7, 12), random.between(1, 8)),
        110..=169 => (random.pick(&[0, 1, 2]), random.pick(&[0, 1, 2, 63, 64])),
        _ => (random.between(1, 6), random.between(1, 4)),
    }
}

/// A style for one table of keys, and a key in that style.
fn key(random: &mut Random, style: usize, row: usize, value: usize) -> Option<usize> {
    match style {
        0 => None,
        1 => Some(value),
        2 => Some(random.below(3)),
        3 => Some(value * 4 + row % 4),
        4 => Some(random.pick(&[0, 1, LAST - 1, LAST])),
        5 => Some(row % 3),
        6 => Some(row),
        _ => (!random.chance(330)).then(|| random.pick(&[0, 1, 2, 3, LAST, LAST - 1])),
    }
}

fn rank(random: &mut Random) -> Option<i64> {
    (!random.chance(300)).then(|| random.pick(&[-1, 0, 1, 2, 3, i64::MIN, i64::MAX]))
}

fn candidates(random: &mut Random, values: usize, large: bool) -> Vec<usize> {
    if values == 0 {
        return Vec::new();
    }
    let most = if large || random.chance(10) { 64 } else { 4 };
    match random.below(4) {
        0 => (0..values.min(most)).collect(),
        1 => (0..values.min(most)).rev().collect(),
        _ => (0..random.below(most + 1)).map(|_| random.below(values)).collect(),
    }
}

/// A roster of these tables, in one of several styles: empty, all one value, anything, legal, legal with keys held once.
pub fn roster(random: &mut Random, tables: &Tables) -> Roster {
    let style = random.below(6);
    let one = random.below(tables.values);
    let mut taken = Vec::new();
    let mut hold = |row: usize| {
        if tables.values == 0 || style == 0 || random.chance(150) {
            return None;
        }
        let value = random.below(tables.values);
        let legal = |v: usize| tables.legal[row * tables.values + v] != 0;
        match style {
            1 => Some(one),
            2 => Some(value),
            3 => (0..tables.values).find(|&v| legal(v)),
            // the first value, from a random one on, that is legal and whose key is free
            _ => {
                let free = (0..tables.values).map(|i| (value + i) % tables.values).find(|&v| {
                    let key = tables.capacity[row * tables.values + v];
                    legal(v) && key.is_none_or(|k| !taken.contains(&k))
                })?;
                taken.extend(tables.capacity[row * tables.values + free]);
                Some(free)
            }
        }
    };
    (0..tables.rows).map(&mut hold).collect()
}

/// A board of this size.
pub fn sized(random: &mut Random, rows: usize, values: usize) -> (Tables, Roster) {
    let mut tables = Tables::blank(rows, values);
    let yes = [0, 200, 500, 800, 950, 1000, 1000];
    let (required, may_empty, legal, edges) = (random.pick(&yes), random.pick(&yes), random.pick(&yes[2..]), random.pick(&yes[1..]));
    let (capacity, sequence) = (random.below(9), random.below(9));
    let large = rows > 40 && random.chance(500);
    for row in 0..rows {
        let (a, b) = (random.chance(required), random.chance(may_empty));
        tables.required[row] = random.flag(a);
        tables.may_empty[row] = random.flag(b);
        tables.position[row] = rank(random);
        tables.order[row] = rank(random);
        tables.candidates[row] = candidates(random, values, large);
        for value in 0..values {
            let cell = row * values + value;
            let a = random.chance(legal);
            tables.legal[cell] = random.flag(a);
            tables.capacity[cell] = key(random, capacity, row, value);
            tables.sequence[cell] = key(random, sequence, row, value);
        }
    }
    tables.edge_rule = random.chance(650);
    for edge in 0..rows * rows {
        let a = random.chance(edges);
        tables.edges[edge] = random.flag(a);
    }
    let roster = roster(random, &tables);
    (tables, roster)
}

/// Makes the sequence keys days: of most boards such as a calendar has, of others some that are too late.
pub fn date(random: &mut Random, tables: &mut Tables) {
    let (absent, late) = (random.pick(&[0, 0, 0, 150, 600]), random.pick(&[0, 0, 0, 50, 400]));
    for key in &mut tables.sequence {
        let day = if random.chance(late) { random.pick(&LATE) } else { day(random) };
        *key = (!random.chance(absent)).then_some(day);
    }
}

const WAYS: [Way; 4] = [Way::Key, Way::Above, Way::Below, Way::Both];
const WHO: [Bystander; 3] = [Bystander::Stone, Bystander::Optional, Bystander::Stuck];

fn any_chain(random: &mut Random) -> Chain {
    let links = random.pick(&[0, 1, 2, 2, 3, 3, 4, 4, 5, 5, 6, 6, 7, 7, 8, 8, 8, 8, 9]);
    let way = random.pick(&WAYS);
    let mixed = random.chance(300);
    let ways = std::array::from_fn(|_| if mixed { random.pick(&WAYS) } else { way });
    let row = random.below(links + 1);
    let end = match random.below(10) {
        0..=5 => End::Nobody,
        6 | 7 => End::Bystander(random.pick(&WHO)),
        8 => End::Chain(0),
        _ => End::Chain(row),
    };
    Chain {
        links,
        round: random.pick(&[0, 0, 2, 3]),
        ways,
        end,
        dead: random.pick(&[Dead::Nothing, Dead::Held, Dead::Illegal, Dead::Taken, Dead::Deep, Dead::Behind, Dead::Branches]),
        beside: random.chance(250).then(|| random.pick(&WHO)),
        optional: random.chance(250).then(|| (random.below(links + 1), random.chance(700))),
        start: random.pick(&[Start::Nothing, Start::Nothing, Start::Alone, Start::Alone, Start::Crowded, Start::Strained]),
        high: random.chance(200),
    }
}

/// Changes a few cells, so that a chain is nearly one.
fn disturb(random: &mut Random, tables: &mut Tables, roster: &mut Roster) {
    let (rows, values) = (tables.rows, tables.values);
    for _ in 0..random.pick(&[1, 1, 2, 3]) {
        let (row, value) = (random.below(rows), random.below(values));
        let cell = row * values + value;
        match random.below(8) {
            0 => tables.required[row] ^= 1,
            1 => tables.may_empty[row] ^= 1,
            2 => tables.legal[cell] ^= 1,
            3 => tables.capacity[cell] = random.pick(&[None, Some(0), Some(1), Some(2)]),
            4 => tables.edges[row * rows + random.below(rows)] ^= 1,
            5 => roster[row] = random.pick(&[None, Some(value)]),
            6 => tables.candidates[row].push(value),
            _ => tables.candidates[row].reverse(),
        }
    }
}

fn shuffled(random: &mut Random, count: usize) -> Vec<usize> {
    let mut all: Vec<usize> = (0..count).collect();
    for i in 0..count {
        all.swap(i, i + random.below(count - i));
    }
    all
}

/// A chain of any kind, its rows and values numbered anyhow, some among rows and values that have no part in it, some disturbed.
fn chain(random: &mut Random) -> (Tables, Roster, Aim) {
    let chain = any_chain(random);
    let mut sketch = chain.sketch();
    match random.below(40) {
        0 => sketch.pad(random.pick(&[127, 128]), random.pick(&[63, 64])),
        1..=20 => sketch.pad(sketch.rows.len() + random.below(3), sketch.values + random.below(3)),
        _ => {}
    }
    let rows = if random.chance(300) { (0..sketch.rows.len()).collect() } else { shuffled(random, sketch.rows.len()) };
    let values = shuffled(random, sketch.values);
    let (mut tables, mut roster) = sketch.board(&rows, &values);
    if random.chance(200) {
        disturb(random, &mut tables, &mut roster);
    }
    (tables, roster, Aim { row: rows[0], value: values[chain.wanted(0)], depth: chain.depth() })
}

/// A random board, one in so many a chain, with the search that it was built for.
pub fn any(random: &mut Random, chains: usize) -> (Tables, Roster, Option<Aim>) {
    if random.below(chains) == 0 {
        let (tables, roster, aim) = chain(random);
        return (tables, roster, Some(aim));
    }
    let (rows, values) = size(random);
    let (tables, roster) = sized(random, rows, values);
    (tables, roster, None)
}
