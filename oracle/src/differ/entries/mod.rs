//! One file for each family of entries. In each, `..._expected` says what the original (or the rule, where it has no such question) does on input that is not refused, and `..._asked` puts the question to the library.
pub mod calendars;
pub mod conflicts;
pub mod cycles;
pub mod ejection;
pub mod index;
pub mod onward;
pub mod paths;
pub mod reinsertions;
pub mod verdicts;

use super::library::Given;
use super::question::{cells_before, Rooms, Seen, FLAG_BEFORE, NUMBER_BEFORE};
use crate::tables::Edit;

const GUARD: usize = 8;

/// Lent cells with guards on both sides.
pub struct Guarded<T = usize> {
    guard: T,
    cells: Vec<T>,
}

impl Guarded {
    pub fn new(inside: &[usize]) -> Guarded {
        Guarded::between(NUMBER_BEFORE, inside)
    }
}

impl<T: Copy + PartialEq> Guarded<T> {
    pub fn between(guard: T, inside: &[T]) -> Guarded<T> {
        let mut cells = Vec::with_capacity(inside.len() + 2 * GUARD);
        cells.extend([guard; GUARD]);
        cells.extend_from_slice(inside);
        cells.extend([guard; GUARD]);
        Guarded { guard, cells }
    }
    pub fn inside(&mut self) -> &mut [T] {
        let end = self.cells.len() - GUARD;
        &mut self.cells[GUARD..end]
    }
    pub fn spilled(&self) -> bool {
        let end = self.cells.len() - GUARD;
        self.cells[..GUARD].iter().chain(&self.cells[end..]).any(|&c| c != self.guard)
    }
    pub fn take(mut self) -> Vec<T> {
        self.inside().to_vec()
    }
}

/// Asks for a flag alone.
pub fn flag_asked(ask: impl FnOnce(&mut u8) -> u8) -> Seen {
    let mut seen = Seen::before(0, [0, 0], None);
    seen.code = ask(&mut seen.flag);
    seen
}

/// Asks for a list in two outputs, its length, further numbers and a flag.
pub fn list_asked<const N: usize>(rooms: Rooms, numbers: [usize; N], ask: impl FnOnce(Given, &mut [usize; N], &mut u8) -> u8) -> Seen {
    let (mut rows, mut values) = (Guarded::new(&cells_before(rooms[0])), Guarded::new(&cells_before(rooms[1])));
    let (mut count, mut more, mut flag) = (NUMBER_BEFORE, numbers, FLAG_BEFORE);
    let given = Given { rows: rows.inside(), values: values.inside(), count: &mut count };
    let code = ask(given, &mut more, &mut flag);
    let mut numbers = vec![count];
    numbers.extend(more);
    let spilled = rows.spilled() || values.spilled();
    let outputs = [rows.take(), values.take(), Vec::new()];
    Seen { code, flag, numbers, outputs, spilled, ..Seen::before(0, [0, 0], None) }
}

/// What a list that is given back leaves: flag 1, its length, the front of both outputs; without one only the flag.
pub fn list_expected(seen: Seen, list: Option<&[Edit]>) -> Seen {
    let Some(list) = list else { return seen.answered(false) };
    let mut seen = seen.answered(true);
    seen.numbers[0] = list.len();
    seen.front(0, list.iter().map(|e| e.0)).front(1, list.iter().map(|e| super::lent::number_of(e.1)))
}
