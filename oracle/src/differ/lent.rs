//! What the engine is lent: the tables packed into three slices, and the index. Written from the layout's description, apart from the engine and from its bindings.
use super::random::Random;
use crate::tables::{Roster, Tables};
use crate::Index;

/// "No value", in rosters and lists.
pub const EMPTY: usize = usize::MAX;

pub fn number_of(value: Option<usize>) -> usize {
    value.unwrap_or(EMPTY)
}

pub fn value_of(number: usize) -> Option<usize> {
    (number != EMPTY).then_some(number)
}

#[derive(Clone, Debug, PartialEq, Eq)]
pub struct Lent {
    pub rows: usize,
    pub values: usize,
    pub edge_rule: u8,
    pub marks: Vec<u8>,
    pub keys: Vec<usize>,
    pub ranks: Vec<i64>,
    pub records: Vec<usize>,
    pub members: Vec<usize>,
    /// What `build` reads.
    pub roster: Vec<usize>,
}

/// Where each table starts, and the lengths, in numbers that cannot overflow.
pub struct Layout {
    pub rows: u128,
    pub cells: u128,
}

impl Layout {
    pub fn of(rows: usize, values: usize) -> Layout {
        Layout { rows: rows as u128, cells: rows as u128 * values as u128 }
    }
    pub fn legal(&self) -> usize {
        (69 * self.rows) as usize
    }
    pub fn capacity_given(&self) -> usize {
        (69 * self.rows + self.cells) as usize
    }
    pub fn sequence_given(&self) -> usize {
        (69 * self.rows + 2 * self.cells) as usize
    }
    pub fn edges(&self) -> usize {
        (69 * self.rows + 3 * self.cells) as usize
    }
    pub fn marks_length(&self) -> u128 {
        // rows can be any number of 64 bits: its square still fits
        (69 * self.rows).saturating_add(self.cells.saturating_mul(3)).saturating_add(self.rows.saturating_mul(self.rows))
    }
    pub fn keys_length(&self) -> u128 {
        self.cells.saturating_mul(2)
    }
    pub fn ranks_length(&self) -> u128 {
        2 * self.rows
    }
    pub fn records_length(&self) -> u128 {
        5 * self.rows
    }
    pub fn members_length(&self) -> u128 {
        3 * (self.rows + 1)
    }
}

/// Packs tables and roster, with their index. With a salt, cells that nobody may read (absent keys and ranks, candidates past the count) hold rubbish, and flags are any number.
pub fn pack(tables: &Tables, roster: &[Option<usize>], salt: u64) -> Lent {
    let (rows, values) = (tables.rows, tables.values);
    let mut rubbish = Random::new(salt);
    let mut junk = |bits: u32| if salt == 0 { 0 } else { rubbish.next() >> (64 - bits) };
    let mut bytes = Random::new(salt.rotate_left(32));
    let mut yes = |given: bool| if salt == 0 { u8::from(given) } else { bytes.flag(given) };
    let layout = Layout::of(rows, values);
    let mut marks = Vec::with_capacity(layout.marks_length() as usize);
    marks.extend(&tables.required);
    marks.extend(&tables.may_empty);
    marks.extend(tables.position.iter().map(|k| yes(k.is_some())));
    marks.extend(tables.order.iter().map(|k| yes(k.is_some())));
    marks.extend(tables.candidates.iter().map(|c| c.len() as u8));
    for listed in &tables.candidates {
        marks.extend(listed.iter().map(|&v| v as u8));
        marks.extend((listed.len()..64).map(|_| junk(8) as u8));
    }
    marks.extend(&tables.legal);
    marks.extend(tables.capacity.iter().map(|k| yes(k.is_some())));
    marks.extend(tables.sequence.iter().map(|k| yes(k.is_some())));
    marks.extend(&tables.edges);
    let mut keys = Vec::with_capacity(layout.keys_length() as usize);
    keys.extend(tables.capacity.iter().map(|k| k.unwrap_or_else(|| junk(3) as usize)));
    keys.extend(tables.sequence.iter().map(|k| k.unwrap_or_else(|| junk(3) as usize)));
    let mut ranks = Vec::with_capacity(2 * rows);
    ranks.extend(tables.position.iter().map(|k| k.unwrap_or_else(|| junk(3) as i64 - 3)));
    ranks.extend(tables.order.iter().map(|k| k.unwrap_or_else(|| junk(3) as i64 - 3)));
    let mut lent = Lent {
        rows,
        values,
        edge_rule: yes(tables.edge_rule),
        marks,
        keys,
        ranks,
        records: Vec::new(),
        members: Vec::new(),
        roster: roster.iter().map(|&v| number_of(v)).collect(),
    };
    (lent.records, lent.members) = lent.index_of(&lent.roster);
    lent
}

/// The packed form of an index that the original built.
pub fn cells_of(index: &Index) -> (Vec<usize>, Vec<usize>) {
    let rows = index.values.len();
    let mut records = Vec::with_capacity(5 * rows);
    records.extend(index.values.iter().map(|&v| number_of(v)));
    for keys in [&index.capacity_keys, &index.sequence_keys] {
        records.extend(keys.iter().map(|k| usize::from(k.is_some())));
        records.extend(keys.iter().map(|k| k.unwrap_or(0)));
    }
    let mut members = Vec::with_capacity(3 * (rows + 1));
    let mut part = |listed: Vec<usize>| {
        members.push(listed.len());
        members.extend(&listed);
        members.extend((listed.len()..rows).map(|_| 0));
    };
    part(index.by_capacity.iter().flat_map(|(_, m)| m.iter().copied()).collect());
    part(index.by_value.iter().flat_map(|(_, m)| m.iter().copied()).collect());
    part(index.by_sequence.iter().flat_map(|(_, m)| m.iter().copied()).collect());
    (records, members)
}

/// Lookups, for slices of the stated lengths.
impl Lent {
    fn layout(&self) -> Layout {
        Layout::of(self.rows, self.values)
    }
    fn key(&self, given: usize, second: bool, row: usize, value: usize) -> Option<usize> {
        if row >= self.rows || value >= self.values {
            return None;
        }
        let cell = row * self.values + value;
        let start = if second { self.rows * self.values } else { 0 };
        (self.marks[given + cell] != 0).then(|| self.keys[start + cell])
    }
    pub fn required(&self, row: usize) -> bool {
        row < self.rows && self.marks[row] != 0
    }
    pub fn may_be_empty(&self, row: usize) -> bool {
        row < self.rows && self.marks[self.rows + row] != 0
    }
    pub fn legal(&self, row: usize, value: usize) -> bool {
        row < self.rows && value < self.values && self.marks[self.layout().legal() + row * self.values + value] != 0
    }
    pub fn capacity(&self, row: usize, value: usize) -> Option<usize> {
        self.key(self.layout().capacity_given(), false, row, value)
    }
    pub fn sequence(&self, row: usize, value: usize) -> Option<usize> {
        self.key(self.layout().sequence_given(), true, row, value)
    }
    pub fn counted(&self, row: usize) -> &[u8] {
        let start = 5 * self.rows + 64 * row;
        &self.marks[start..start + usize::from(self.marks[4 * self.rows + row])]
    }

    /// The index that these tables and the roster give: a model, apart from the original.
    pub fn index_of(&self, roster: &[usize]) -> (Vec<usize>, Vec<usize>) {
        let rows = self.rows;
        let capacity: Vec<_> = (0..rows).map(|r| self.capacity(r, roster[r])).collect();
        let sequence: Vec<_> = (0..rows).map(|r| self.sequence(r, roster[r])).collect();
        let mut records = roster.to_vec();
        for keys in [&capacity, &sequence] {
            records.extend(keys.iter().map(|k| usize::from(k.is_some())));
            records.extend(keys.iter().map(|k| k.unwrap_or(0)));
        }
        let mut members = Vec::with_capacity(3 * (rows + 1));
        let mut part = |mut of: Vec<(usize, usize, usize)>| {
            of.sort_unstable();
            members.push(of.len());
            members.extend(of.iter().map(|m| m.2));
            members.extend((of.len()..rows).map(|_| 0));
        };
        part((0..rows).filter_map(|r| capacity[r].map(|k| (k, 0, r))).collect());
        part((0..rows).filter(|&r| roster[r] != EMPTY).map(|r| (roster[r], 0, r)).collect());
        part((0..rows).filter_map(|r| sequence[r].map(|k| (roster[r], k, r))).collect());
        (records, members)
    }

    /// The tables as the original takes them, of slices that are not refused.
    pub fn unpack(&self) -> Tables {
        let (rows, values) = (self.rows, self.values);
        let layout = self.layout();
        let part = |start: usize, length: usize| self.marks[start..start + length].to_vec();
        let ranks = |given: usize, start: usize| (0..rows).map(|r| (self.marks[given + r] != 0).then(|| self.ranks[start + r])).collect();
        let cells = || (0..rows).flat_map(|r| (0..values).map(move |v| (r, v)));
        Tables {
            rows,
            values,
            required: part(0, rows),
            may_empty: part(rows, rows),
            position: ranks(2 * rows, 0),
            order: ranks(3 * rows, rows),
            candidates: (0..rows).map(|r| self.counted(r).iter().map(|&v| usize::from(v)).collect()).collect(),
            legal: part(layout.legal(), rows * values),
            capacity: cells().map(|(r, v)| self.capacity(r, v)).collect(),
            sequence: cells().map(|(r, v)| self.sequence(r, v)).collect(),
            edge_rule: self.edge_rule != 0,
            edges: part(layout.edges(), rows * rows),
        }
    }

    /// The roster that the index holds.
    pub fn held(&self) -> Roster {
        self.records[..self.rows].iter().map(|&v| value_of(v)).collect()
    }
}

/// One thing that is done to the lent slices. Places count modulo the length, so that a damage still means something on a smaller board.
#[derive(Clone, Copy, Debug, PartialEq, Eq)]
pub enum Damage {
    /// Another board instead, blank, of this size and with every length right.
    Blank(usize, usize),
    Rows(usize),
    Values(usize),
    Length(Slice, isize),
    Mark(usize, u8),
    CandidateCount(usize, u8),
    Candidate(usize, u8),
    Key(usize, usize),
    Record(usize, usize),
    Member(usize, usize),
    MembersExchanged(usize, usize),
    Held(usize, usize),
}

#[derive(Clone, Copy, Debug, PartialEq, Eq)]
pub enum Slice {
    Marks,
    Keys,
    Ranks,
    Records,
    Members,
    Roster,
}

fn stretch<T: Copy + Default>(slice: &mut Vec<T>, by: isize) {
    let length = slice.len().saturating_add_signed(by);
    slice.resize(length, T::default());
}

fn put<T>(slice: &mut [T], at: usize, cell: T) {
    let length = slice.len();
    if length != 0 {
        slice[at % length] = cell;
    }
}

impl Damage {
    pub fn apply(self, lent: &mut Lent) {
        let rows = lent.rows;
        match self {
            Damage::Blank(rows, values) => *lent = pack(&Tables::blank(rows, values), &vec![None; rows], 0),
            Damage::Rows(n) => lent.rows = n,
            Damage::Values(n) => lent.values = n,
            Damage::Length(Slice::Marks, by) => stretch(&mut lent.marks, by),
            Damage::Length(Slice::Keys, by) => stretch(&mut lent.keys, by),
            Damage::Length(Slice::Ranks, by) => stretch(&mut lent.ranks, by),
            Damage::Length(Slice::Records, by) => stretch(&mut lent.records, by),
            Damage::Length(Slice::Members, by) => stretch(&mut lent.members, by),
            Damage::Length(Slice::Roster, by) => stretch(&mut lent.roster, by),
            Damage::Mark(at, byte) => put(&mut lent.marks, at, byte),
            Damage::CandidateCount(row, count) if lent.marks.len() >= 69 * rows.min(128) => {
                put(&mut lent.marks[4 * rows.min(128)..5 * rows.min(128)], row, count)
            }
            Damage::Candidate(at, value) if lent.marks.len() >= 69 * rows.min(128) => {
                put(&mut lent.marks[5 * rows.min(128)..69 * rows.min(128)], at, value)
            }
            Damage::CandidateCount(..) | Damage::Candidate(..) => {}
            Damage::Key(at, key) => put(&mut lent.keys, at, key),
            Damage::Record(at, cell) => put(&mut lent.records, at, cell),
            Damage::Member(at, cell) => put(&mut lent.members, at, cell),
            Damage::MembersExchanged(a, b) => {
                let length = lent.members.len();
                if length != 0 {
                    lent.members.swap(a % length, b % length);
                }
            }
            Damage::Held(row, value) => put(&mut lent.roster, row, value),
        }
    }

    pub fn random(random: &mut Random, lent: &Lent) -> Damage {
        let at = random.next() as usize >> 16;
        let small = random.below(4);
        let number = random.pick(&[0, 1, 2, EMPTY, EMPTY - 1, lent.values, lent.rows, small, 64, 128]);
        match random.below(25) {
            24 => {
                let (rows, values) =
                    random.pick(&[(129, 1), (129, 64), (128, 65), (1, 65), (0, 65), (129, 0), (128, 64), (128, 0), (0, 64), (0, 0)]);
                Damage::Blank(rows, values)
            }
            0 => Damage::Rows(random.pick(&[lent.rows + 1, lent.rows.wrapping_sub(1), 129, 1 << 63, usize::MAX, 0, 1 << 32])),
            1 => Damage::Values(random.pick(&[lent.values + 1, lent.values.wrapping_sub(1), 65, 1 << 63, usize::MAX, 0, 1 << 32])),
            2 | 3 => Damage::Length(
                random.pick(&[Slice::Marks, Slice::Keys, Slice::Ranks, Slice::Records, Slice::Members, Slice::Roster]),
                random.pick(&[1, -1, 2, -2, 64, -1_000_000]),
            ),
            4 => Damage::Mark(at, random.next() as u8),
            5 | 6 => Damage::CandidateCount(at, random.pick(&[0, 1, 63, 64, 65, 128, 255, small as u8])),
            7..=9 => Damage::Candidate(at, random.pick(&[lent.values as u8, (lent.values as u8).wrapping_sub(1), 0, 64, 255])),
            10 => Damage::Key(at, number),
            11..=14 => Damage::Record(at, number),
            15..=18 => Damage::Member(at, number),
            19..=21 => Damage::MembersExchanged(at, random.next() as usize >> 16),
            _ => Damage::Held(at, number),
        }
    }
}
