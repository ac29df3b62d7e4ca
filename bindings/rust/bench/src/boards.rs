//! Boards of full size: 128 rows, 64 values.
use oracle::{Roster, Tables};
use turepawon::{TableData, TableFault};

const ROWS: usize = 128;
const VALUES: usize = 64;

/// All legal, all may be empty, all edges allowed, all candidates, no keys.
fn open(rule: bool) -> Tables {
    let mut t = Tables::blank(ROWS, VALUES);
    t.legal.fill(1);
    t.may_empty.fill(1);
    t.edges.fill(1);
    t.edge_rule = rule;
    for row in 0..ROWS {
        t.position[row] = Some((row % 32) as i64);
        t.order[row] = Some(-(row as i64));
        t.candidates[row] = (0..VALUES).collect();
    }
    t
}

/// 32 days of 4 duties: the key is value and day, the sequence the day. Each of four drivers works every day.
pub fn week(rule: bool) -> (Tables, Roster) {
    let mut t = open(rule);
    for row in 0..ROWS {
        for value in 0..VALUES {
            t.capacity[row * VALUES + value] = Some(value * 32 + row % 32);
            t.sequence[row * VALUES + value] = Some(row % 32);
        }
    }
    (t, (0..ROWS).map(|row| Some(16 * (row / 32))).collect())
}

/// The same with every duty required: who is in the way is asked to take another driver.
pub fn strict(rule: bool) -> (Tables, Roster) {
    let (mut t, roster) = week(rule);
    t.required.fill(1);
    (t, roster)
}

/// All rows with one driver, at so many places, no capacity keys.
pub fn crowd(places: usize) -> (Tables, Roster) {
    let mut t = open(true);
    for row in 0..ROWS {
        for value in 0..VALUES {
            t.sequence[row * VALUES + value] = Some(row % places);
        }
    }
    (t, vec![Some(0); ROWS])
}

/// One driver with so many duties, the first on 2026-01-01 and one each day from then on.
pub fn dated(duties: usize) -> (Tables, Roster) {
    let mut t = open(false);
    for row in 0..ROWS {
        t.sequence[row * VALUES] = Some(20_454 + row);
    }
    (t, (0..ROWS).map(|row| (row < duties).then_some(0)).collect())
}

/// Every key has two holders, of which the first is required.
pub fn doubled() -> (Tables, Roster) {
    let mut t = open(false);
    for row in 0..ROWS {
        t.required[row] = u8::from(row < VALUES);
        for value in 0..VALUES {
            t.capacity[row * VALUES + value] = Some(value);
        }
    }
    (t, (0..ROWS).map(|row| Some(row % VALUES)).collect())
}

/// Every one of eight drivers holds one required duty, and each of these has those drivers as its only candidates: no chain ends.
pub fn full() -> (Tables, Roster) {
    let mut t = open(false);
    for row in 0..ROWS {
        t.required[row] = 1;
        t.candidates[row] = (0..8).collect();
        for value in 0..VALUES {
            t.capacity[row * VALUES + value] = Some(value);
        }
    }
    (t, (0..ROWS).map(|row| (row < 8).then_some(row)).collect())
}

/// Every driver holds one required duty, the key is the driver, and each duty has so many candidates, all taken: a search goes to its depth and finds nothing.
pub fn taken(rule: bool, offered: usize) -> (Tables, Roster) {
    let mut t = open(rule);
    t.required.fill(1);
    for row in 0..ROWS {
        t.candidates[row] = (0..offered).map(|i| (row * 5 + 1 + i * 7) % VALUES).collect();
        for value in 0..VALUES {
            t.capacity[row * VALUES + value] = Some(value);
            t.sequence[row * VALUES + value] = Some(row % 16);
        }
    }
    (t, (0..ROWS).map(|row| (row < VALUES).then_some(row)).collect())
}

/// The same, and every driver but the last holds a second duty that may be emptied on the way.
pub fn taken_twice(rule: bool, offered: usize) -> (Tables, Roster) {
    let (mut t, mut roster) = taken(rule, offered);
    for row in VALUES..ROWS - 1 {
        t.required[row] = 0;
        roster[row] = Some(row - VALUES);
    }
    (t, roster)
}

/// The same tables for the engine.
pub fn data(t: &Tables) -> Result<TableData, TableFault> {
    let mut data = TableData::blank(t.rows, t.values);
    data.edge_rule = t.edge_rule;
    data.required.clone_from(&t.required);
    data.may_be_empty.clone_from(&t.may_empty);
    data.legal.clone_from(&t.legal);
    data.edges.clone_from(&t.edges);
    for row in 0..t.rows {
        data.set_position(row, t.position[row])?;
        data.set_order(row, t.order[row])?;
        let candidates: Vec<u8> = t.candidates[row].iter().map(|&v| v as u8).collect();
        data.set_candidates(row, &candidates)?;
        for value in 0..t.values {
            data.set_capacity(row, value, t.capacity[row * t.values + value])?;
            data.set_sequence(row, value, t.sequence[row * t.values + value])?;
        }
    }
    Ok(data)
}
