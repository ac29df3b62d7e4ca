//! Random questions to a board.
use super::chains::Aim;
use super::entries::{calendars, index};
use super::lent::{number_of, EMPTY};
use super::objects;
use super::question::{Act, Kind, Lists, Question, Rooms, WalkRooms};
use super::random::Random;
use super::windows::{Windows, EJECTIONS, REMATCHES};
use crate::tables::Tables;
use crate::{Cursor, Original, SearchRequest};

/// A board as the questions see it, with the search that it was built for.
pub struct Asked<'a> {
    pub tables: &'a Tables,
    pub roster: &'a [Option<usize>],
    pub aim: Option<Aim>,
}

impl Asked<'_> {
    fn row(&self, random: &mut Random) -> usize {
        if self.tables.rows == 0 || random.chance(25) {
            return random.pick(&[self.tables.rows, self.tables.rows + 1, 128, EMPTY]);
        }
        random.below(self.tables.rows)
    }

    fn value(&self, random: &mut Random) -> usize {
        if self.tables.values == 0 || random.chance(25) {
            return random.pick(&[self.tables.values, self.tables.values + 1, 64, EMPTY - 1, EMPTY]);
        }
        random.below(self.tables.values)
    }

    /// Mostly rows once and in range.
    fn rows(&self, random: &mut Random) -> Vec<usize> {
        let rows = self.tables.rows;
        let most = match random.below(30) {
            0 => rows + 2,
            1 | 2 => rows,
            3..=5 => 6,
            _ => 4,
        };
        if random.chance(5) {
            // longer than any board has rows
            return (0..random.pick(&[129, 130, 131, 257, 300])).map(|i| (i + most) % rows.max(1)).collect();
        }
        let length = random.below(most + 1);
        if random.chance(120) {
            return (0..length).map(|_| self.row(random)).collect();
        }
        let mut pool: Vec<usize> = (0..rows).collect();
        let length = length.min(rows);
        for i in 0..length {
            let j = i + random.below(rows - i);
            pool.swap(i, j);
        }
        pool.truncate(length);
        pool
    }

    /// Values for the rows, in one of several styles: what they hold turned round, legal ones, empty, anything.
    fn list(&self, random: &mut Random) -> Lists {
        let rows = self.rows(random);
        let style = random.below(6);
        let held = |row: usize| self.roster.get(row).copied().flatten();
        let mut list = Lists::default();
        for (i, &row) in rows.iter().enumerate() {
            let value = match style {
                0 => number_of(held(rows[(i + 1) % rows.len()])),
                1 if random.chance(600) => number_of(held(row)),
                2 if random.chance(600) => EMPTY,
                3 | 4 => {
                    let from = self.value(random);
                    let legal = |v: &usize| row < self.tables.rows && self.tables.legal[row * self.tables.values + v] != 0;
                    (0..self.tables.values).map(|k| (from.wrapping_add(k)) % self.tables.values).find(legal).unwrap_or(EMPTY)
                }
                _ => self.value(random),
            };
            list.push(row, value);
        }
        if random.chance(10) {
            random.pick(&[Lists::shorter_rows as fn(&mut Lists), Lists::shorter_values])(&mut list);
        }
        list
    }

    fn rooms(&self, random: &mut Random, needed: usize) -> Rooms {
        let mut room = || if random.chance(30) { needed.saturating_sub(1) } else { needed + random.below(4) };
        [room(), room()]
    }

    /// Mostly so little that a walk stops with moves left, sometimes enough for all.
    fn walk_rooms(&self, random: &mut Random) -> WalkRooms {
        let rows = self.tables.rows;
        let more = random.pick(&[1, 1, 3, 8, 40, 400]);
        std::array::from_fn(|_| if random.chance(20) { rows.saturating_sub(1) } else { rows + random.below(more) })
    }

    /// Around the search that the board was built for, or any.
    fn search(&self, random: &mut Random, original: &mut Original) -> SearchRequest {
        match self.aim {
            Some(aim) if !random.chance(100) => self.aimed(random, aim, original),
            _ => self.any_search(random, original),
        }
    }

    fn aimed(&self, random: &mut Random, aim: Aim, original: &mut Original) -> SearchRequest {
        let (less, any) = (aim.depth.saturating_sub(1), random.below(9));
        let request = SearchRequest {
            row: aim.row,
            value: aim.value,
            depth: random.pick(&[aim.depth, aim.depth, aim.depth, less, aim.depth + 1, 8, any]).min(9),
            displacement: random.chance(500),
            candidate_limit: random.pick(&[None, None, None, None, None, Some(1), Some(2), Some(3)]),
            budget: EMPTY,
        };
        Self::budgeted(random, request, original)
    }

    /// Half of the requests get a budget around the asks that they make without.
    fn budgeted(random: &mut Random, request: SearchRequest, original: &mut Original) -> SearchRequest {
        if request.depth > 8 || random.chance(500) {
            return request;
        }
        let asks = original.search(&request).1;
        let budget = match random.below(4) {
            0 => asks,
            1 => asks.saturating_sub(1),
            2 => asks.saturating_sub(2),
            _ => random.below(asks + 2),
        };
        SearchRequest { budget, ..request }
    }

    /// Candidates make the search grow fast, so a request that could run long has a budget.
    fn any_search(&self, random: &mut Random, original: &mut Original) -> SearchRequest {
        let most = self.tables.candidates.iter().map(Vec::len).max().unwrap_or(0);
        let limit = random.pick(&[None, None, None, Some(0), Some(1), Some(2), Some(3), Some(64), Some(EMPTY - 1)]);
        let depth = random.pick(&[0, 1, 1, 2, 2, 3, 3, 4, 5, 8, 9, EMPTY]);
        let offered = limit.map_or(most, |n| n.min(most)) as f64;
        let long = depth <= 8 && offered.powi(depth as i32) > 3000.0;
        let request = SearchRequest {
            row: self.row(random),
            value: self.value(random),
            depth,
            displacement: random.chance(500),
            candidate_limit: limit,
            budget: if long { random.below(4000) } else { EMPTY },
        };
        Self::budgeted(random, request, original)
    }

    /// Mostly what the original gives, also with a row twice or one out of range put in.
    fn order(&self, random: &mut Random, original: &Original) -> Vec<usize> {
        match random.below(16) {
            0 => (0..random.pick(&[0, 1, 2, 3, 4, 5, 127, 128, 129, 130])).map(|_| self.row(random)).collect(),
            1 | 2 => self.rows(random),
            3 | 4 => {
                let mut order = original.order(random.below(7));
                let at = random.below(order.len() + 1);
                let other = order.first().copied().unwrap_or(0);
                order.insert(at, random.pick(&[other, other, self.tables.rows, EMPTY]));
                order
            }
            _ => original.order(self.offset(random)),
        }
    }

    /// On a long order the original may take seconds to find that nothing is left, so there the windows are short and near the end.
    fn cursor(random: &mut Random, windows: Windows, count: usize) -> Cursor {
        let (most, from) = if count > 12 { (5, count - 6) } else { (count, 0) };
        let longest = random.between(2, most.max(2));
        let (start, len) = (random.between(from, count), random.between(windows.least, longest.max(windows.least)));
        let mut cursor = Cursor { start, len, variant: random.below((windows.tries)(len) + 1), longest };
        if random.chance(400) {
            cursor = Cursor { start: from, variant: random.below((windows.tries)(windows.least)), ..windows.first(longest) };
        }
        if random.chance(80) {
            let any = random.pick(&[0, 1, 2, 3, count, count + 1, EMPTY]);
            match random.below(4) {
                0 => cursor.start = any,
                1 => cursor.len = any,
                2 => cursor.variant = any,
                _ => cursor.longest = any,
            }
        }
        cursor
    }

    /// A size of windows for a whole walk: short ones on a larger board, which has them by the hundred.
    fn walk_size(&self, random: &mut Random) -> usize {
        random.pick(&if self.tables.rows > 12 { [2, 3, 4, 4] } else { [0, 3, 4, EMPTY] })
    }

    /// Around the number of rows that hold something, its multiples, and the last numbers.
    fn offset(&self, random: &mut Random) -> usize {
        let count = self.roster.iter().flatten().count();
        let around = (count * random.below(4) + random.below(3)).saturating_sub(1);
        random.pick(&[0, 0, 1, 2, 3, around, around, around, self.tables.rows, 1 << 32, 1 << 63, EMPTY - 2, EMPTY - 1, EMPTY])
    }

    /// None, few, as many as a row has and as there can be, and far too many.
    fn limit(&self, random: &mut Random, window: &[usize]) -> Option<usize> {
        let has = window.first().and_then(|&row| self.tables.candidates.get(row)).map_or(0, Vec::len);
        random.pick(&[
            None,
            None,
            Some(0),
            Some(1),
            Some(2),
            Some(has.saturating_sub(1)),
            Some(has),
            Some(has + 1),
            Some(64),
            Some(EMPTY - 1),
        ])
    }

    fn reinsertion(&self, random: &mut Random) -> Question {
        let list = self.list(random);
        // mostly a row of the list, as in a repair
        if !list.rows.is_empty() && random.chance(600) {
            let i = random.below(list.rows.len().min(list.values.len()).max(1));
            let (row, value) = (list.rows[i], list.values.get(i).copied().unwrap_or(0));
            return Question::Reinsert(list, row, value);
        }
        Question::Reinsert(list, self.row(random), self.value(random))
    }

    fn ejection(&self, random: &mut Random) -> Question {
        let window = match random.below(400) {
            0 => (0..random.pick(&[128, 129])).map(|_| self.row(random)).collect(),
            _ => self.rows(random),
        };
        let rooms = self.rooms(random, window.len());
        let limit = self.limit(random, &window);
        let any = random.next() as usize;
        let attempt = random.pick(&[0, 1, 2, 3, 4, 5, 7, 63, 64, 65, 127, 128, any, 1 << 32, 1 << 63, EMPTY - 1, EMPTY]);
        Question::Ejection(window, attempt, limit, rooms)
    }

    /// A step over ejection windows, or a walk, which on large boards is left out too.
    fn ejection_windows(&self, random: &mut Random, kind: Kind, original: &Original) -> Question {
        let rows = self.tables.rows;
        if kind == Kind::EjectionStep || rows > 40 {
            let order = self.order(random, original);
            let cursor = Self::cursor(random, EJECTIONS, order.len());
            let limit = self.limit(random, &order);
            return Question::EjectionStep(order, cursor, limit, self.rooms(random, rows));
        }
        let (offset, size, limit) = (self.offset(random), self.walk_size(random), self.limit(random, &[0]));
        if kind == Kind::EjectionWalk {
            return Question::EjectionWalk(offset, size, limit);
        }
        Question::OwnEjections(offset, size, limit, random.pick(&[0, 1, 1, 2, 2, 2, 3, 5]))
    }

    /// A list to apply: of a chain mostly what its search finds, which may fail the final test.
    fn to_apply(&self, random: &mut Random, original: &mut Original) -> Lists {
        let request = |aim: Aim, displacement| SearchRequest {
            row: aim.row,
            value: aim.value,
            depth: aim.depth.min(8),
            displacement,
            candidate_limit: None,
            budget: EMPTY,
        };
        let aim = self.aim.filter(|_| random.chance(600));
        match aim.and_then(|aim| original.found_list(&request(aim, random.chance(500)))) {
            Some(found) => Lists { rows: found.iter().map(|e| e.0).collect(), values: found.iter().map(|e| number_of(e.1)).collect() },
            None => self.list(random),
        }
    }

    /// Acts in turn, each list made for the roster that those before leave; some put back what the last one changed.
    fn acts(&self, random: &mut Random, original: &mut Original) -> Vec<(Act, Lists)> {
        let mut now = self.roster.to_vec();
        let (mut acts, mut back) = (Vec::new(), Lists::default());
        for _ in 0..random.between(2, 5) {
            let asked = Asked { roster: &now, ..*self };
            let list = if random.chance(200) { back.clone() } else { asked.to_apply(random, original) };
            let act = random.pick(&[Act::Apply, Act::Apply, Act::Refresh]);
            if index::act(original, self.tables.rows, self.tables.values, act, &list).accepted() {
                back = put(&mut now, &list);
            }
            acts.push((act, list));
        }
        original.rebuild();
        acts
    }

    /// Mostly somebody who holds a row that has a day.
    fn driver(&self, random: &mut Random) -> usize {
        let with_day = |(row, held): (usize, &Option<usize>)| held.filter(|v| self.tables.sequence[row * self.tables.values + v].is_some());
        let busy: Vec<usize> = self.roster.iter().enumerate().filter_map(with_day).collect();
        if busy.is_empty() || random.chance(150) {
            return self.value(random);
        }
        random.pick(&busy)
    }

    fn calendar(&self, random: &mut Random, original: &Original) -> Question {
        let driver = self.driver(random);
        let room = objects::room(random, &calendars::duties(original, driver));
        Question::DriverCalendar(driver, objects::stamp(random), room)
    }

    fn new_cursor(random: &mut Random, new: fn(usize, usize) -> Question) -> Question {
        let numbers = [0, 1, 2, 3, 4, 127, 128, 129, EMPTY];
        new(random.pick(&numbers), random.pick(&numbers))
    }

    pub fn random(&self, random: &mut Random, kind: Kind, original: &mut Original) -> Question {
        let rows = self.tables.rows;
        match kind {
            Kind::Tables => Question::Tables,
            Kind::Admit => Question::Admit,
            Kind::Build => Question::Build,
            Kind::Refresh => Question::Refresh((0..random.between(1, 4)).map(|_| self.list(random)).collect()),
            Kind::Apply => Question::Apply(self.to_apply(random, original)),
            Kind::Acts => Question::Acts(self.acts(random, original)),
            Kind::Final => Question::Final(self.list(random)),
            Kind::Reinsert => self.reinsertion(random),
            Kind::Sound => Question::Sound,
            Kind::Conflicts => Question::Conflicts(self.rooms(random, rows)),
            Kind::Search => Question::Search(self.search(random, original), self.rooms(random, rows)),
            Kind::Ceiling => {
                Question::Ceiling(random.pick(&[0, 1, 2, 3, 8, 63, 64, 65, EMPTY]), random.pick(&[0, 1, 2, 3, 4, 5, 6, 7, 8, 9, EMPTY]))
            }
            Kind::Order => Question::Order(self.offset(random), self.rooms(random, rows)[0]),
            Kind::NewCursor => Self::new_cursor(random, Question::NewCursor),
            Kind::Step => {
                let order = self.order(random, original);
                let cursor = Self::cursor(random, REMATCHES, order.len());
                Question::Step(order, cursor, self.rooms(random, rows))
            }
            Kind::Onward => {
                let order = self.order(random, original);
                let cursor = Self::cursor(random, REMATCHES, order.len());
                Question::Onward(order, cursor, self.walk_rooms(random))
            }
            // a walk is left out on large boards
            Kind::Walk if rows > 40 => Question::Order(self.offset(random), rows),
            Kind::Walk => Question::Walk(self.offset(random), self.walk_size(random)),
            Kind::NewEjectionCursor => Self::new_cursor(random, Question::NewEjectionCursor),
            Kind::EjectionStep | Kind::EjectionWalk | Kind::OwnEjections => self.ejection_windows(random, kind, original),
            Kind::Ejection => self.ejection(random),
            Kind::DriverCalendar => self.calendar(random, original),
            Kind::ReadCalendar => objects::reading(random),
            Kind::CalendarBack => Question::CalendarBack(self.driver(random), objects::stamp(random)),
            Kind::Records | Kind::StepAt => unreachable!("asked behind the question that is not lent a struct"),
        }
    }
}

/// Gives the listed rows their values, and the list that puts back what they held.
fn put(roster: &mut [Option<usize>], list: &Lists) -> Lists {
    let mut back = Lists::default();
    for (row, value) in list.edits() {
        back.push(row, number_of(roster[row]));
        roster[row] = value;
    }
    back
}

impl Lists {
    fn shorter_rows(&mut self) {
        self.rows.pop();
    }
    fn shorter_values(&mut self) {
        self.values.pop();
    }
}
