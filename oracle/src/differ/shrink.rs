//! A case by itself, and the smallest one that still disagrees.
use super::calendars::MOST_OCTETS;
use super::judge::{compare, expected, Disagreement};
use super::lent::{pack, Damage, Lent};
use super::library::Library;
use super::objects::line_starts;
use super::question::{Lists, Octets, Question};
use super::windows::{Windows, EJECTIONS, REMATCHES};
use crate::tables::{Roster, Tables};
use crate::Cursor;

#[derive(Clone, Debug)]
pub struct Case {
    pub tables: Tables,
    pub roster: Roster,
    /// What rubbish stands in cells that nobody may read; 0 is none.
    pub salt: u64,
    pub damage: Vec<Damage>,
    pub question: Question,
}

impl Case {
    pub fn lent(&self) -> Lent {
        let mut lent = pack(&self.tables, &self.roster, self.salt);
        self.damage.iter().for_each(|damage| damage.apply(&mut lent));
        lent
    }

    pub fn disagreement(&self, library: &dyn Library) -> Option<Box<Disagreement>> {
        let whole = self.lent();
        let answer = expected(&whole, &self.question);
        compare(library, &mut whole.clone(), &whole, answer, &self.question).err()
    }
}

fn without<T: Clone>(list: &[T], at: usize) -> Vec<T> {
    let mut list = list.to_vec();
    list.remove(at);
    list
}

fn lower(number: &mut usize, gone: usize) {
    if *number > gone && *number <= 128 {
        *number -= 1;
    }
}

/// The lists of a question, to be made smaller in place.
fn lists(question: &mut Question) -> Vec<&mut Lists> {
    match question {
        Question::Refresh(lists) => lists.iter_mut().collect(),
        Question::Acts(acts) => acts.iter_mut().map(|(_, list)| list).collect(),
        Question::Final(list) | Question::Records(list) | Question::Apply(list) | Question::Reinsert(list, _, _) => vec![list],
        _ => Vec::new(),
    }
}

fn drop_entries(question: &mut Question, drop: impl Fn(usize, usize) -> bool) {
    for list in lists(question) {
        let kept: Vec<_> = list.rows.iter().copied().zip(list.values.iter().copied()).filter(|&(r, v)| !drop(r, v)).collect();
        let (longer_rows, longer_values) = (list.rows.len() > list.values.len(), list.values.len() > list.rows.len());
        (list.rows, list.values) = kept.into_iter().unzip();
        if longer_rows {
            list.rows.push(0);
        }
        if longer_values {
            list.values.push(0);
        }
    }
}

/// A cursor for an order that has become shorter: what fitted before fits again.
fn fitted(windows: Windows, at: Cursor, before: usize, count: usize) -> Cursor {
    let shorter = |number: usize, bound: usize, new: usize| if number <= bound { number.min(new) } else { number };
    let longest = shorter(at.longest, before.max(2), count.max(2));
    let len = shorter(at.len, at.longest.max(windows.least), longest.max(windows.least));
    // a variant that was past the tries stays as far past them
    let (tries, fewer) = ((windows.tries)(at.len), (windows.tries)(len));
    let variant = if at.variant <= tries { at.variant.min(fewer) } else { at.variant - (tries - fewer) };
    Cursor { start: shorter(at.start, before, count), len, variant, longest }
}

/// An order with the cursor over it, and its kind.
struct Walked<'a> {
    order: &'a mut Vec<usize>,
    at: &'a mut Cursor,
    windows: Windows,
}

impl Walked<'_> {
    /// Takes places out of the order; the cursor stands before the same ones as it did.
    fn thin(&mut self, gone: impl Fn(usize, usize) -> bool) {
        let count = self.order.len();
        let is_gone = |(i, row): (usize, &usize)| gone(i, *row);
        let before = self.order.iter().enumerate().take(self.at.start).filter(|&place| is_gone(place)).count();
        let start = if self.at.start <= count { self.at.start - before } else { self.at.start };
        *self.order = self.order.iter().enumerate().filter(|&place| !is_gone(place)).map(|(_, &row)| row).collect();
        *self.at = fitted(self.windows, Cursor { start, ..*self.at }, count, self.order.len());
    }
}

/// The order and the cursor of a question that has them.
fn walked(question: &mut Question) -> Option<Walked<'_>> {
    match question {
        Question::Step(order, at, _) | Question::StepAt(order, at, _) | Question::Onward(order, at, _) => {
            Some(Walked { order, at, windows: REMATCHES })
        }
        Question::EjectionStep(order, at, _, _) => Some(Walked { order, at, windows: EJECTIONS }),
        _ => None,
    }
}

fn without_row(case: &Case, row: usize) -> Case {
    let mut new = case.clone();
    let (rows, values) = (case.tables.rows, case.tables.values);
    let t = &mut new.tables;
    t.rows -= 1;
    t.required.remove(row);
    t.may_empty.remove(row);
    t.position.remove(row);
    t.order.remove(row);
    t.candidates.remove(row);
    t.legal.drain(row * values..(row + 1) * values);
    t.capacity.drain(row * values..(row + 1) * values);
    t.sequence.drain(row * values..(row + 1) * values);
    t.edges = (0..rows * rows).filter(|e| e / rows != row && e % rows != row).map(|e| case.tables.edges[e]).collect();
    new.roster.remove(row);
    drop_entries(&mut new.question, |r, _| r == row);
    lists(&mut new.question).into_iter().for_each(|list| list.rows.iter_mut().for_each(|r| lower(r, row)));
    match &mut new.question {
        Question::Reinsert(_, r, _) => lower(r, row),
        Question::Search(request, _) => lower(&mut request.row, row),
        Question::Ejection(window, ..) => {
            window.retain(|&r| r != row);
            window.iter_mut().for_each(|r| lower(r, row));
        }
        _ => {}
    }
    if let Some(mut walked) = walked(&mut new.question) {
        walked.thin(|_, r| r == row);
        walked.order.iter_mut().for_each(|r| lower(r, row));
    }
    new
}

fn without_value(case: &Case, value: usize) -> Case {
    let mut new = case.clone();
    let (rows, values) = (case.tables.rows, case.tables.values);
    let kept = |cell: &usize| cell % values != value;
    let t = &mut new.tables;
    t.values -= 1;
    t.legal = (0..rows * values).filter(kept).map(|c| case.tables.legal[c]).collect();
    t.capacity = (0..rows * values).filter(kept).map(|c| case.tables.capacity[c]).collect();
    t.sequence = (0..rows * values).filter(kept).map(|c| case.tables.sequence[c]).collect();
    for listed in &mut t.candidates {
        listed.retain(|&v| v != value);
        listed.iter_mut().for_each(|v| lower(v, value));
    }
    for held in &mut new.roster {
        *held = match *held {
            Some(v) if v == value => None,
            Some(mut v) => {
                lower(&mut v, value);
                Some(v)
            }
            None => None,
        };
    }
    drop_entries(&mut new.question, |_, v| v == value);
    lists(&mut new.question).into_iter().for_each(|list| list.values.iter_mut().for_each(|v| lower(v, value)));
    match &mut new.question {
        Question::Reinsert(_, _, v) => lower(v, value),
        Question::Search(request, _) => lower(&mut request.value, value),
        Question::DriverCalendar(driver, ..) | Question::CalendarBack(driver, _) => lower(driver, value),
        _ => {}
    }
    new
}

/// A stamp without an octet, or with a digit that becomes 0.
fn plainer_stamps(stamp: &Octets) -> Vec<Octets> {
    let shorter = (0..stamp.0.len()).map(|at| Octets(without(&stamp.0, at)));
    let zeroed = (0..stamp.0.len()).filter(|&at| matches!(stamp.0[at], b'1'..=b'9')).map(|at| {
        let mut stamp = stamp.clone();
        stamp.0[at] = b'0';
        stamp
    });
    shorter.chain(zeroed).collect()
}

/// Less of a calendar's own: the first driver, a plainer stamp, less room.
fn lesser_calendars(driver: usize, stamp: &Octets, room: usize) -> Vec<Question> {
    let first = (driver != 0).then(|| Question::DriverCalendar(0, stamp.clone(), room));
    let stamps = plainer_stamps(stamp).into_iter().map(|stamp| Question::DriverCalendar(driver, stamp, room));
    let rooms = [0, room / 2, room.saturating_sub(100), room.saturating_sub(1)].into_iter().filter(|&less| less < room);
    first.into_iter().chain(stamps).chain(rooms.map(|room| Question::DriverCalendar(driver, stamp.clone(), room))).collect()
}

/// A text is cut octet by octet when it is no longer than this.
const SHORT: usize = 1000;

/// A text without ten events, one, a fold, a line, or, where it is short, some octets.
fn shorter_texts(text: &Octets) -> Vec<Octets> {
    let starts = line_starts(&text.0);
    let folds = (0..text.0.len()).filter(|&at| matches!(text.0[at..], [b'\r', b'\n', b' ' | b'\t', ..])).map(|at| at..at + 3);
    let lines = |lines: usize| starts.windows(lines + 1).map(move |run| run[0]..run[lines]);
    let events = |events: usize| lines(6 * events).filter(|run| text.0[run.start..].starts_with(b"BEGIN:VEVENT"));
    let octets = runs(if text.0.len() > SHORT { 0 } else { text.0.len() });
    let cut = |run: std::ops::Range<usize>| Octets([&text.0[..run.start], &text.0[run.end..]].concat());
    events(10).chain(events(1)).chain(folds).chain(lines(1)).chain(octets).map(cut).collect()
}

/// The question with less of what is its own.
fn shorter(question: &Question) -> Vec<Question> {
    match question {
        Question::Onward(order, at, rooms) => vec![
            Question::Onward(order.clone(), *at, rooms.map(|room| room.saturating_sub(1))),
            Question::Step(order.clone(), *at, [rooms[0], rooms[1]]),
        ],
        Question::Order(offset, room) => (0..2).filter(|n| n < offset).map(|n| Question::Order(n, *room)).collect(),
        Question::EjectionWalk(offset, size, limit) => {
            (0..2).filter(|n| n < offset).map(|n| Question::EjectionWalk(n, *size, *limit)).collect()
        }
        Question::OwnEjections(offset, size, limit, depth) => {
            let offsets = (0..2).filter(|n| n < offset).map(|n| Question::OwnEjections(n, *size, *limit, *depth));
            offsets.chain((0..*depth).map(|n| Question::OwnEjections(*offset, *size, *limit, n))).collect()
        }
        Question::Ejection(window, attempt, limit, rooms) => {
            let windows = (0..window.len()).map(|i| Question::Ejection(without(window, i), *attempt, *limit, *rooms));
            let attempts = (0..2).filter(|n| n < attempt).map(|n| Question::Ejection(window.clone(), n, *limit, *rooms));
            windows.chain(attempts).collect()
        }
        Question::Search(request, rooms) => {
            let mut smaller = *request;
            smaller.depth = request.depth.min(9).saturating_sub(1);
            vec![Question::Search(smaller, *rooms)]
        }
        Question::Refresh(run) if run.len() > 1 => (0..run.len()).map(|i| Question::Refresh(without(run, i))).collect(),
        // what a single act shows is asked as such
        Question::Acts(acts) if acts.len() > 1 => {
            let fewer = (0..acts.len()).map(|i| Question::Acts(without(acts, i)));
            question.calls().into_iter().chain(fewer).collect()
        }
        Question::Acts(_) => question.calls(),
        Question::DriverCalendar(driver, stamp, room) => lesser_calendars(*driver, stamp, *room),
        Question::CalendarBack(driver, stamp) => {
            let stamps = plainer_stamps(stamp).into_iter().map(|stamp| Question::CalendarBack(*driver, stamp));
            std::iter::once(Question::DriverCalendar(*driver, stamp.clone(), MOST_OCTETS)).chain(stamps).collect()
        }
        Question::ReadCalendar(text, rooms) => {
            let texts = shorter_texts(text).into_iter().map(|text| Question::ReadCalendar(text, *rooms));
            let rooms = [[rooms[0].saturating_sub(1), rooms[1]], [rooms[0], rooms[1].saturating_sub(1)]];
            texts.chain(rooms.map(|rooms| Question::ReadCalendar(text.clone(), rooms))).collect()
        }
        _ => Vec::new(),
    }
}

/// Smaller questions on the same board.
fn smaller_questions(case: &Case) -> Vec<Case> {
    let mut found = Vec::new();
    let mut offer = |question: Question| {
        if question != case.question {
            found.push(Case { question, ..case.clone() });
        }
    };
    let counts: Vec<_> = lists(&mut case.question.clone()).iter().map(|l| l.rows.len().min(l.values.len())).collect();
    for (which, &count) in counts.iter().enumerate() {
        for i in 0..count {
            let mut question = case.question.clone();
            let list = &mut *lists(&mut question)[which];
            list.rows.remove(i);
            list.values.remove(i);
            offer(question);
        }
    }
    let places = walked(&mut case.question.clone()).map_or(0, |walked| walked.order.len());
    for run in runs(places) {
        let mut question = case.question.clone();
        walked(&mut question).expect("an order has places").thin(|i, _| run.contains(&i));
        offer(question);
    }
    let mut earlier = case.question.clone();
    if let Some(Walked { at, .. }) = walked(&mut earlier) {
        at.variant = at.variant.saturating_sub(1);
        offer(earlier);
    }
    shorter(&case.question).into_iter().for_each(offer);
    found
}

/// Acts that begin behind the first one, on the roster that its list leaves.
fn behind_the_first(case: &Case) -> Option<Case> {
    let Question::Acts(acts) = &case.question else { return None };
    let (first, later) = acts.split_first().filter(|(_, later)| !later.is_empty())?;
    let mut new = Case { question: Question::Acts(later.to_vec()), ..case.clone() };
    for (row, value) in first.1.edits() {
        if row < case.tables.rows && value.is_none_or(|value| value < case.tables.values) {
            new.roster[row] = value;
        }
    }
    Some(new)
}

type Change = Box<dyn Fn(&mut Tables)>;

/// Tables with less in them: one table made plain, then one cell of it.
fn plainer_tables(case: &Case) -> impl Iterator<Item = Change> {
    let (rows, cells, edges) = (case.tables.rows, case.tables.legal.len(), case.tables.edges.len());
    let whole: [fn(&mut Tables); 10] = [
        |t| t.edge_rule = false,
        |t| t.candidates.iter_mut().for_each(Vec::clear),
        |t| t.position.fill(None),
        |t| t.order.fill(None),
        |t| t.capacity.fill(None),
        |t| t.sequence.fill(None),
        |t| t.required.fill(0),
        |t| t.may_empty.fill(1),
        |t| t.legal.fill(1),
        |t| t.edges.fill(1),
    ];
    let row: [fn(&mut Tables, usize); 5] = [
        |t, row| t.required[row] = 0,
        |t, row| t.may_empty[row] = 1,
        |t, row| t.position[row] = None,
        |t, row| t.order[row] = None,
        |t, row| {
            t.candidates[row].pop();
        },
    ];
    let cell: [fn(&mut Tables, usize); 5] = [
        |t, cell| t.legal[cell] = 1,
        |t, cell| t.capacity[cell] = None,
        |t, cell| t.sequence[cell] = None,
        |t, cell| t.capacity[cell] = t.capacity[cell].map(|k| k.min(1)),
        |t, cell| t.sequence[cell] = t.sequence[cell].map(|k| k.min(1)),
    ];
    let at = |change: fn(&mut Tables, usize), place: usize| -> Change { Box::new(move |t| change(t, place)) };
    let edge: fn(&mut Tables, usize) = |t, edge| t.edges[edge] = 1;
    whole
        .into_iter()
        .map(|change| -> Change { Box::new(change) })
        .chain((0..rows).flat_map(move |r| row.map(|change| at(change, r))))
        .chain((0..cells).flat_map(move |c| cell.map(|change| at(change, c))))
        .chain((0..edges).map(move |e| at(edge, e)))
}

/// Runs of 64, 32, .. 1 among `count`, each from its end on, so that what is removed moves nothing that is still to go.
fn runs(count: usize) -> impl Iterator<Item = std::ops::Range<usize>> {
    [64, 16, 4, 1].into_iter().flat_map(move |length: usize| (0..count / length).map(move |i| i * length..(i + 1) * length))
}

/// The same damage at an earlier place.
fn earlier(damage: Damage) -> Vec<Damage> {
    let below = |at: usize| (0..at.min(16)).rev();
    match damage {
        Damage::Mark(at, byte) => below(at).map(|at| Damage::Mark(at, byte)).collect(),
        Damage::CandidateCount(at, count) => below(at).map(|at| Damage::CandidateCount(at, count)).collect(),
        Damage::Candidate(at, value) => below(at).map(|at| Damage::Candidate(at, value)).collect(),
        Damage::Key(at, key) => below(at).map(|at| Damage::Key(at, key)).collect(),
        Damage::Record(at, cell) => below(at).map(|at| Damage::Record(at, cell)).collect(),
        Damage::Member(at, cell) => below(at).map(|at| Damage::Member(at, cell)).collect(),
        Damage::Held(at, value) => below(at).map(|at| Damage::Held(at, value)).collect(),
        Damage::MembersExchanged(a, b) => below(a).flat_map(|x| below(b).map(move |y| Damage::MembersExchanged(x, y))).collect(),
        _ => Vec::new(),
    }
}

/// Every smaller case, made one at a time: a large board has many.
fn smaller(case: &Case) -> impl Iterator<Item = Case> + '_ {
    let without_rows = |run: std::ops::Range<usize>| run.rev().fold(case.clone(), |c, row| without_row(&c, row));
    let without_values = |run: std::ops::Range<usize>| run.rev().fold(case.clone(), |c, value| without_value(&c, value));
    let plainer = |change: Change| {
        let mut new = case.clone();
        change(&mut new.tables);
        (new.tables != case.tables).then_some(new)
    };
    let emptied = |row: usize| {
        let mut new = case.clone();
        new.roster[row].take().map(|_| new)
    };
    let moved = move |i: usize| {
        let at = move |damage: Damage| {
            let mut new = case.clone();
            new.damage[i] = damage;
            new
        };
        earlier(case.damage[i]).into_iter().map(at)
    };
    (0..case.damage.len())
        .map(|i| Case { damage: without(&case.damage, i), ..case.clone() })
        .chain((0..case.damage.len()).flat_map(moved))
        .chain(runs(case.tables.rows).map(without_rows))
        .chain(runs(case.tables.values).map(without_values))
        .chain(smaller_questions(case))
        .chain(behind_the_first(case))
        .chain((case.salt != 0).then(|| Case { salt: 0, ..case.clone() }))
        .chain((0..case.tables.rows).filter_map(emptied))
        .chain(plainer_tables(case).filter_map(plainer))
}

/// Goes to a smaller case for as long as one disagrees. Each step takes something away for good, so it ends.
pub fn smallest(library: &dyn Library, case: Case) -> Case {
    let mut now = case;
    loop {
        let next = smaller(&now).find(|c| c.disagreement(library).is_some());
        match next {
            Some(next) => now = next,
            None => return now,
        }
    }
}
