//! Conflicts: one pair of key and row for each holder, in order.
use super::super::lent::Lent;
use super::super::library::Library;
use super::super::question::{Rooms, Seen};
use super::list_asked;
use crate::Original;

pub fn expected(original: &Original, rooms: Rooms) -> Seen {
    let pairs: Vec<_> = original.conflicts().into_iter().flat_map(|(key, rows)| rows.into_iter().map(move |row| (key, row))).collect();
    let mut seen = Seen::before(1, rooms, None);
    seen.numbers[0] = pairs.len();
    seen.front(0, pairs.iter().map(|p| p.0)).front(1, pairs.iter().map(|p| p.1))
}

pub fn asked(library: &dyn Library, lent: &Lent, rooms: Rooms) -> Seen {
    list_asked(rooms, [], |given, [], _| library.conflicts(lent, given.rows, given.values, given.count))
}
