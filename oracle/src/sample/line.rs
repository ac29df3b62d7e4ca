//! A question and its answer as a line of the list.
use super::segments;
use crate::differ::question::{cells_before, octets_before, Kind, Lists, Octets, Question, Seen, FLAG_BEFORE, NUMBER_BEFORE};
use std::fmt::Write;

/// What the replay puts into a flag, a number and a cell before a call.
const REPLAY_FLAG: u8 = 77;
const REPLAY_NUMBER: usize = 7_777_777;

pub fn replay_cell(at: usize) -> usize {
    7_000_000 + at
}

/// Whether lines can say a kind, a walk as its steps, acts in turn as so many calls: they have no place for the third output of a walk in one call, the replay calls no entry that is lent a struct, what is left of a walk beside the original's own is no call, and a calendar that is read back is two.
pub fn says(kind: Kind) -> bool {
    !matches!(kind, Kind::Onward | Kind::Records | Kind::StepAt | Kind::OwnEjections | Kind::CalendarBack)
}

/// What an entry is handed besides the slices: its number, numbers, two lists, two rooms.
struct Handed {
    entry: usize,
    numbers: Vec<usize>,
    lists: Lists,
    rooms: [usize; 2],
}

fn handed(entry: usize, numbers: &[usize], lists: Lists, rooms: [usize; 2]) -> Handed {
    Handed { entry, numbers: numbers.to_vec(), lists, rooms }
}

fn limit(most: Option<usize>) -> usize {
    most.unwrap_or(usize::MAX)
}

/// `goes_on`: whether a refresh or an application begins with what the one before it left.
fn hand(question: &Question, goes_on: bool) -> Handed {
    let none = Lists::default;
    let one = |rows: &[usize]| Lists { rows: rows.to_vec(), values: Vec::new() };
    let octets = |octets: &Octets| one(&cells(&octets.0));
    match question {
        Question::Tables => handed(10, &[], none(), [0, 0]),
        Question::Admit => handed(11, &[], none(), [0, 0]),
        Question::Build => handed(12, &[], none(), [0, 0]),
        Question::Refresh(lists) => handed(13, &[usize::from(goes_on)], lists[0].clone(), [0, 0]),
        Question::Final(list) => handed(14, &[], list.clone(), [0, 0]),
        Question::Reinsert(list, row, value) => handed(15, &[*row, *value], list.clone(), [0, 0]),
        Question::Sound => handed(16, &[], none(), [0, 0]),
        Question::Conflicts(rooms) => handed(17, &[], none(), *rooms),
        Question::Search(r, rooms) => {
            let numbers = [r.row, r.value, r.depth, usize::from(r.displacement), limit(r.candidate_limit), r.budget];
            handed(18, &numbers, none(), *rooms)
        }
        Question::Ceiling(candidates, depth) => handed(19, &[*candidates, *depth], none(), [0, 0]),
        Question::Order(offset, room) => handed(20, &[*offset], none(), [*room, 0]),
        Question::NewCursor(count, size) => handed(21, &[*count, *size], none(), [0, 0]),
        Question::Step(order, at, rooms) => handed(22, &[at.start, at.len, at.variant, at.longest], one(order), *rooms),
        Question::Ejection(window, attempt, most, rooms) => handed(23, &[*attempt, limit(*most)], one(window), *rooms),
        Question::NewEjectionCursor(count, size) => handed(24, &[*count, *size], none(), [0, 0]),
        Question::EjectionStep(order, at, most, rooms) => {
            handed(25, &[at.start, at.len, at.variant, at.longest, limit(*most)], one(order), *rooms)
        }
        Question::Apply(list) => handed(26, &[usize::from(goes_on)], list.clone(), [0, 0]),
        Question::DriverCalendar(driver, stamp, room) => handed(27, &[*driver], octets(stamp), [*room, 0]),
        Question::ReadCalendar(text, rooms) => handed(28, &[], octets(text), *rooms),
        Question::Walk(..) | Question::EjectionWalk(..) => unreachable!("a walk is asked step by step"),
        Question::Acts(_) => unreachable!("acts are asked one by one"),
        Question::Onward(..) | Question::Records(_) | Question::StepAt(..) => unreachable!("no line says it"),
        Question::OwnEjections(..) | Question::CalendarBack(..) => unreachable!("no line says it"),
    }
}

fn counted(text: &mut String, numbers: &[usize]) {
    write!(text, ",{}", numbers.len()).expect("text");
    numbers.iter().for_each(|n| write!(text, ",{n}").expect("text"));
}

/// Octets as cells.
fn cells(octets: &[u8]) -> Vec<usize> {
    octets.iter().map(|&octet| usize::from(octet)).collect()
}

/// The cells up to the last that was written.
fn written<'a, T: PartialEq>(cells: &'a [T], before: &[T]) -> &'a [T] {
    let written = (0..cells.len()).rev().find(|&at| cells[at] != before[at]).map_or(0, |at| at + 1);
    assert!((0..written).all(|at| cells[at] != before[at]), "a cell was passed over");
    &cells[..written]
}

/// What was written of an output.
pub fn front(cells: &[usize]) -> &[usize] {
    written(cells, &cells_before(cells.len()))
}

/// The same of the first output, which is bytes for a calendar.
fn first_front(seen: &Seen) -> Vec<usize> {
    if seen.octets.0.is_empty() {
        return front(&seen.outputs[0]).to_vec();
    }
    cells(written(&seen.octets.0, &octets_before(seen.octets.0.len()).0))
}

/// The numbers told, up to the last that was written.
fn told(numbers: &[usize]) -> Vec<usize> {
    let written = numbers.iter().rposition(|&n| n != NUMBER_BEFORE).map_or(0, |at| at + 1);
    numbers[..written].iter().map(|&n| if n == NUMBER_BEFORE { REPLAY_NUMBER } else { n }).collect()
}

/// The line of a question whose answer is this one. A question is one call.
pub fn write(question: &Question, goes_on: bool, seen: &Seen, text: &mut String) {
    let handed = hand(question, goes_on);
    write!(text, "{}", handed.entry).expect("text");
    counted(text, &handed.numbers);
    counted(text, &handed.lists.rows);
    counted(text, &handed.lists.values);
    let flag = if seen.flag == FLAG_BEFORE { REPLAY_FLAG } else { seen.flag };
    write!(text, ",{},{},{},{flag}", handed.rooms[0], handed.rooms[1], seen.code).expect("text");
    counted(text, &told(&seen.numbers));
    counted(text, &first_front(seen));
    counted(text, front(&seen.outputs[1]));
    if matches!(question, Question::Build | Question::Refresh(_) | Question::Apply(_)) {
        seen.index.iter().for_each(|cells| segments::write(&segments::of(cells), text));
    }
    text.push_str("\r\n");
}
