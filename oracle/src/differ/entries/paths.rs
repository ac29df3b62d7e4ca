//! The search by path: whether there is a move, the list in order, the asks made; and the ask ceiling.
use super::super::lent::Lent;
use super::super::library::Library;
use super::super::question::{Rooms, Seen, NUMBER_BEFORE};
use super::{list_asked, list_expected};
use crate::{Original, SearchRequest};

/// Numbers: the list's length (only with a move), the asks.
pub fn search_expected(original: &mut Original, request: &SearchRequest, rooms: Rooms) -> Seen {
    let (found, asks) = original.search(request);
    let mut seen = Seen::before(2, rooms, None);
    seen.numbers[1] = asks;
    list_expected(seen, found.as_deref())
}

pub fn search_asked(library: &dyn Library, lent: &Lent, request: &SearchRequest, rooms: Rooms) -> Seen {
    list_asked(rooms, [NUMBER_BEFORE], |given, [asks], found| library.search(lent, request, given, asks, found))
}

/// 2 + P(depth), with P(0) = 1 and P(d) = 1 + c + c P(d - 1).
pub fn ceiling_expected(candidates: usize, depth: usize) -> Seen {
    let levels = (0..depth).fold(1, |below, _| 1 + candidates + candidates * below);
    Seen { numbers: vec![2 + levels], ..Seen::before(1, [0, 0], None) }
}

pub fn ceiling_asked(library: &dyn Library, candidates: usize, depth: usize) -> Seen {
    let mut seen = Seen::before(1, [0, 0], None);
    seen.code = library.ceiling(candidates, depth, &mut seen.numbers[0]);
    seen
}
