//! `ejection_reinsert_edits`: a list, or none.
use super::super::lent::Lent;
use super::super::library::Library;
use super::super::question::{Rooms, Seen};
use super::{list_asked, list_expected};
use crate::Original;

pub fn expected(original: &mut Original, window: &[usize], attempt: usize, limit: Option<usize>, rooms: Rooms) -> Seen {
    let list = original.ejection(window, attempt, limit);
    list_expected(Seen::before(1, rooms, None), list.as_deref())
}

pub fn asked(library: &dyn Library, lent: &Lent, window: &[usize], attempt: usize, limit: Option<usize>, rooms: Rooms) -> Seen {
    list_asked(rooms, [], |given, [], listed| library.ejection(lent, window, attempt, limit, given, listed))
}
