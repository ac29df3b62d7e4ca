//! The refusal table as a model: which number an entry answers, in which order. Nothing here looks at the engine.
use super::calendars::{duties_in, is_stamp, octets, Duty, LAST_DAY};
use super::lent::{Layout, Lent, EMPTY};
use super::question::{Lists, Question};
use super::windows::{Windows, EJECTIONS, REMATCHES};
use crate::Cursor;

fn lengths_fit(lent: &Lent) -> bool {
    let layout = Layout::of(lent.rows, lent.values);
    lent.marks.len() as u128 == layout.marks_length()
        && lent.keys.len() as u128 == layout.keys_length()
        && lent.ranks.len() as u128 == layout.ranks_length()
}

fn index_lengths_fit(lent: &Lent) -> bool {
    let layout = Layout::of(lent.rows, lent.values);
    lent.records.len() as u128 == layout.records_length() && lent.members.len() as u128 == layout.members_length()
}

/// 1 and 2: everything that has a length, then the candidates.
fn tables(lent: &Lent, own_lengths: bool) -> u8 {
    if lent.rows > 128 || lent.values > 64 || !own_lengths || !lengths_fit(lent) {
        return 1;
    }
    let bad = |row| {
        let count = usize::from(lent.marks[4 * lent.rows + row]);
        count > 64 || lent.counted(row).iter().any(|&v| usize::from(v) >= lent.values)
    };
    if (0..lent.rows).any(bad) {
        2
    } else {
        0
    }
}

fn holdable(values: usize, value: usize) -> bool {
    value == EMPTY || value < values
}

/// 1, 2, 3, 6: what stands before every entry that takes an index.
fn index(lent: &Lent, own_lengths: bool) -> u8 {
    let tables = tables(lent, own_lengths && index_lengths_fit(lent));
    if tables != 0 {
        return tables;
    }
    let held = &lent.records[..lent.rows];
    if !held.iter().all(|&v| holdable(lent.values, v)) {
        return 3;
    }
    let (records, members) = lent.index_of(held);
    if records != lent.records || members != lent.members {
        return 6;
    }
    0
}

/// A list that is refreshed: 1 where its slices differ in length, and then entry by entry 4, 5, 3.
pub fn list(rows: usize, values: usize, list: &Lists) -> u8 {
    if list.rows.len() != list.values.len() {
        return 1;
    }
    for (i, (&row, &value)) in list.rows.iter().zip(&list.values).enumerate() {
        if row >= rows {
            return 4;
        }
        if list.rows[..i].contains(&row) {
            return 5;
        }
        if !holdable(values, value) {
            return 3;
        }
    }
    0
}

fn first(refusals: [u8; 3]) -> u8 {
    refusals.into_iter().find(|&n| n != 0).unwrap_or(0)
}

fn room(rooms: &[usize], needed: usize) -> u8 {
    if rooms.iter().any(|&room| room < needed) {
        7
    } else {
        0
    }
}

/// 10: a cursor of this kind over an order of `count` rows.
fn cursor(windows: Windows, at: &Cursor, count: usize) -> u8 {
    if windows.fit(at, count) {
        0
    } else {
        10
    }
}

/// A step of either kind, and a walk in one call, which has an output more.
fn walk(lent: &Lent, windows: Windows, order: &[usize], at: &Cursor, rooms: &[usize]) -> u8 {
    first([index(lent, order.len() <= 128), cursor(windows, at, order.len()), room(rooms, lent.rows)])
}

/// What follows 6 of a calendar: 17, 16, 11, and 7 where there is a room.
fn calendar(lent: &Lent, driver: usize, stamp: &[u8], room: Option<usize>) -> u8 {
    let index = index(lent, true);
    if index != 0 {
        return index;
    }
    let day = |row: usize| lent.sequence(row, driver).filter(|_| lent.records[row] == driver);
    let duties: Vec<Duty> = (0..lent.rows).filter_map(|row| Some((row, day(row)?))).collect();
    if !is_stamp(stamp) {
        17
    } else if duties.is_empty() {
        16
    } else if duties.iter().any(|duty| duty.1 > LAST_DAY) {
        11
    } else if room.is_some_and(|room| room < octets(&duties)) {
        7
    } else {
        0
    }
}

/// What each question adds: whether its own lengths fit, and what is refused after 6. The lists of acts are judged one by one, as they come.
pub fn of(lent: &Lent, question: &Question) -> u8 {
    match question {
        Question::Tables => tables(lent, true),
        Question::Admit | Question::Sound | Question::Refresh(_) | Question::Acts(_) => index(lent, true),
        Question::Walk(..) | Question::EjectionWalk(..) | Question::OwnEjections(..) => index(lent, true),
        Question::Build => {
            let tables = tables(lent, lent.roster.len() == lent.rows && index_lengths_fit(lent));
            let held = if tables == 0 && !lent.roster.iter().all(|&v| holdable(lent.values, v)) { 3 } else { 0 };
            first([tables, held, 0])
        }
        Question::Final(list) | Question::Records(list) | Question::Apply(list) | Question::Reinsert(list, _, _) => {
            index(lent, list.rows.len() == list.values.len())
        }
        Question::Conflicts(rooms) => first([index(lent, true), room(rooms, lent.rows), 0]),
        Question::Search(request, rooms) => first([index(lent, true), if request.depth > 8 { 8 } else { 0 }, room(rooms, lent.rows)]),
        Question::Ceiling(candidates, depth) => first([if *candidates > 64 { 2 } else { 0 }, if *depth > 8 { 8 } else { 0 }, 0]),
        Question::Order(_, out) => first([index(lent, true), room(&[*out], lent.rows), 0]),
        Question::NewCursor(count, _) | Question::NewEjectionCursor(count, _) => u8::from(*count > 128),
        Question::Step(order, at, rooms) | Question::StepAt(order, at, rooms) => walk(lent, REMATCHES, order, at, rooms),
        Question::Onward(order, at, rooms) => walk(lent, REMATCHES, order, at, rooms),
        Question::EjectionStep(order, at, _, rooms) => walk(lent, EJECTIONS, order, at, rooms),
        Question::Ejection(window, _, _, rooms) => first([index(lent, window.len() <= 128), room(rooms, window.len()), 0]),
        Question::DriverCalendar(driver, stamp, room) => calendar(lent, *driver, &stamp.0, Some(*room)),
        Question::CalendarBack(driver, stamp) => calendar(lent, *driver, &stamp.0, None),
        Question::ReadCalendar(text, rooms) => duties_in(&text.0).map_or(13, |duties| room(rooms, duties.len())),
    }
}
