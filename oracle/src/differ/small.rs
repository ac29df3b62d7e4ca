//! Every board of a few small families, with every list of a few small ones.
use super::calendars::{object, LAST_DAY, MOST_OCTETS};
use super::chains::{Chain, Dead, End, Start, Way};
use super::lent::EMPTY;
use super::objects::line_starts;
use super::question::{Act, Lists, Octets, Question, WalkRooms};
use super::sketch::Bystander;
use super::windows::{Windows, EJECTIONS, REMATCHES};
use crate::tables::{Roster, Tables};
use crate::{Cursor, SearchRequest};

/// Takes a number apart, digit by digit.
struct Digits(u64);

impl Digits {
    fn next(&mut self, base: u64) -> u64 {
        let digit = self.0 % base;
        self.0 /= base;
        digit
    }
    fn flag(&mut self) -> u8 {
        self.next(2) as u8
    }
    fn pick<T: Copy>(&mut self, from: &[T]) -> T {
        from[self.next(from.len() as u64) as usize]
    }
}

/// A family: how many boards it has, the board of a number, and the questions that each is asked.
pub struct Family {
    pub name: &'static str,
    pub boards: u64,
    pub board: fn(u64) -> (Tables, Roster),
    pub questions: fn() -> Vec<Question>,
}

/// No rule, or the rule with every choice of edges between different rows.
fn edges(tables: &mut Tables, digits: &mut Digits) {
    let rows = tables.rows;
    let pairs = (0..rows * rows).filter(|e| e / rows != e % rows);
    let choice = digits.next(1 + (1 << pairs.clone().count()));
    tables.edge_rule = choice != 0;
    for (i, edge) in pairs.enumerate() {
        tables.edges[edge] = (choice.saturating_sub(1) >> i & 1) as u8;
    }
}

/// Two rows, one value: all flags, keys absent or 0, sequences absent, 0 or 1.
fn two_by_one(number: u64) -> (Tables, Roster) {
    let (mut tables, mut digits) = (Tables::blank(2, 1), Digits(number));
    let mut roster = Roster::new();
    for row in 0..2 {
        tables.required[row] = digits.flag();
        tables.may_empty[row] = digits.flag();
        tables.legal[row] = digits.flag();
        tables.capacity[row] = digits.pick(&[None, Some(0)]);
        tables.sequence[row] = digits.pick(&[None, Some(0), Some(1)]);
        roster.push(digits.pick(&[None, Some(0)]));
    }
    tables.candidates.fill((0..tables.values).collect());
    edges(&mut tables, &mut digits);
    (tables, roster)
}

/// One row, two values: all flags, keys and sequences absent, 0 or the last number.
fn one_by_two(number: u64) -> (Tables, Roster) {
    let (mut tables, mut digits) = (Tables::blank(1, 2), Digits(number));
    tables.required[0] = digits.flag();
    tables.may_empty[0] = digits.flag();
    for value in 0..2 {
        tables.legal[value] = digits.flag();
        tables.capacity[value] = digits.pick(&[None, Some(0), Some(EMPTY)]);
        tables.sequence[value] = digits.pick(&[None, Some(0), Some(EMPTY)]);
    }
    let roster = vec![digits.pick(&[None, Some(0), Some(1)])];
    tables.candidates.fill((0..tables.values).collect());
    edges(&mut tables, &mut digits);
    (tables, roster)
}

/// Three optional rows, one value, all legal: keys absent or 0, sequences at the end of the numbers.
fn three_by_one(number: u64) -> (Tables, Roster) {
    let (mut tables, mut digits) = (Tables::blank(3, 1), Digits(number));
    let mut roster = Roster::new();
    tables.legal.fill(1);
    tables.may_empty.fill(1);
    for row in 0..3 {
        tables.capacity[row] = digits.pick(&[None, Some(0)]);
        tables.sequence[row] = digits.pick(&[Some(EMPTY - 2), Some(EMPTY - 1), Some(EMPTY)]);
        roster.push(digits.pick(&[None, Some(0)]));
    }
    tables.candidates.fill((0..tables.values).collect());
    edges(&mut tables, &mut digits);
    (tables, roster)
}

/// Four rows, three values: every roster, keys absent, by value, or by value and row; all legal, one value illegal, or another for each row; one row required; positions absent or falling; the edge rule off, or on with the edges of rising rows alone.
fn four_by_three(number: u64) -> (Tables, Roster) {
    let (mut tables, mut digits) = (Tables::blank(4, 3), Digits(number));
    let roster: Roster = (0..4).map(|_| digits.pick(&[None, Some(0), Some(1), Some(2)])).collect();
    let (keys, illegal) = (digits.next(3), digits.next(3));
    tables.edge_rule = digits.flag() != 0;
    let falling = digits.flag() != 0;
    tables.required[1] = 1;
    tables.may_empty.fill(1);
    for row in 0..4 {
        tables.position[row] = falling.then_some(-(row as i64));
        tables.candidates[row] = [0, 1, 2].map(|i| (i + row) % 3).to_vec();
        for value in 0..3 {
            let cell = row * 3 + value;
            tables.legal[cell] = u8::from(!(illegal == 1 && cell == 4 || illegal == 2 && value == row));
            tables.capacity[cell] = [None, Some(value), Some(value * 2 + row % 2)][keys as usize];
            tables.sequence[cell] = Some(row / 2);
            tables.edges[row * 4 + value] = u8::from(row <= value);
        }
    }
    (tables, roster)
}

/// No row or no value.
fn nothing(number: u64) -> (Tables, Roster) {
    let mut digits = Digits(number);
    let (rows, values) = digits.pick(&[(0, 0), (0, 1), (0, 64), (1, 0), (2, 0), (128, 0)]);
    let mut tables = Tables::blank(rows, values);
    tables.may_empty.fill(digits.flag());
    tables.required.fill(digits.flag());
    tables.edge_rule = digits.flag() != 0;
    (tables, vec![None; rows])
}

/// How many chains there are: of 0 to 8 links, by each way, with each end, dead end, row beside and start, all required or one row not.
const CHAINS: u64 = 9 * 4 * 6 * 7 * 4 * 4 * 4;

fn chain(number: u64) -> (Tables, Roster) {
    let mut digits = Digits(number);
    let who = [Bystander::Stone, Bystander::Optional, Bystander::Stuck];
    let links = digits.next(9) as usize;
    let way = digits.pick(&[Way::Key, Way::Above, Way::Below, Way::Both]);
    let [stone, optional, stuck] = who.map(End::Bystander);
    let end = digits.pick(&[End::Nobody, stone, optional, stuck, End::Chain(0), End::Chain(links / 2)]);
    let dead = digits.pick(&[Dead::Nothing, Dead::Held, Dead::Illegal, Dead::Taken, Dead::Deep, Dead::Behind, Dead::Branches]);
    let beside = digits.pick(&[None, Some(who[0]), Some(who[1]), Some(who[2])]);
    let optional = digits.pick(&[None, Some((0, true)), Some((links / 2 + 1, true)), Some((links, false))]);
    let start = digits.pick(&[Start::Nothing, Start::Alone, Start::Crowded, Start::Strained]);
    // two values in turn, or one for each link; some with numbers that end at the last: not multiplied with the rest
    let mut besides = Digits(number / 5);
    let (round, high) = (besides.pick(&[2, 0]), besides.next(3) == 0);
    Chain { round, end, dead, beside, optional, start, high, ..Chain::plain(links, way) }.board()
}

/// The search that a chain is built for, by every depth, with budgets around the asks of a chain that has nothing else.
fn asked_of_chains() -> Vec<Question> {
    let mut all = vec![Question::Admit, Question::Sound];
    for depth in 0..=9 {
        for budget in [2 * depth + 2, 2 * depth + 3, EMPTY] {
            for (displacement, candidate_limit) in [(false, None), (true, None), (false, Some(1)), (true, Some(2))] {
                all.push(Question::Search(SearchRequest { row: 0, value: 0, depth, displacement, candidate_limit, budget }, [40, 40]));
            }
        }
    }
    all
}

/// 127 or 128 rows and one value, with no keys: held by all or by none, required or not.
fn many_rows(number: u64) -> (Tables, Roster) {
    let mut digits = Digits(number);
    let rows = digits.pick(&[127, 128]);
    let mut tables = Tables::blank(rows, 1);
    tables.required.fill(digits.flag());
    tables.may_empty.fill(1);
    tables.legal.fill(1);
    (tables, vec![digits.pick(&[None, Some(0)]); rows])
}

/// Lists that name every row once, and longer ones: rows again, or one that is out of range at the end; and the longest windows.
fn asked_of_many_rows() -> Vec<Question> {
    let list = |length: usize, value: usize| Lists { rows: (0..length).map(|i| i % 128).collect(), values: vec![value; length] };
    let lengths = [0, 1, 126, 127, 128, 129, 130, 131, 255, 256, 257, 1000];
    let mut lists: Vec<Lists> = lengths.iter().flat_map(|&length| [list(length, 0), list(length, EMPTY), list(length, 1)]).collect();
    for row in [0, 127, 128, EMPTY] {
        for length in [126, 127, 128, 129] {
            let mut list = list(length, 0);
            list.push(row, 0);
            lists.push(list);
        }
    }
    let tested = lists.into_iter().flat_map(|list| [Question::Apply(list.clone()), Question::Final(list)]);
    tested.chain(long_windows()).collect()
}

/// Steps over an order of 128 rows: from the last attempt of the longest window, behind it, from one attempt too many, and from the last window of all.
fn long_windows() -> impl Iterator<Item = Question> {
    let places = [(0, 128, 127), (0, 128, 128), (0, 128, 129), (126, 2, 1)];
    places.into_iter().map(|(start, len, variant)| {
        let at = Cursor { start, len, variant, longest: 128 };
        Question::EjectionStep((0..128).collect(), at, None, [128, 128])
    })
}

/// Every list of at most `longest` edits over these rows and values.
fn lists(rows: &[usize], values: &[usize], longest: usize) -> Vec<Lists> {
    let mut all = vec![Lists::default()];
    let mut start = 0;
    for _ in 0..longest {
        let end = all.len();
        for i in start..end {
            for &row in rows {
                for &value in values {
                    let mut list = all[i].clone();
                    list.push(row, value);
                    all.push(list);
                }
            }
        }
        start = end;
    }
    all
}

/// Every two lists of at most one edit in turn: both applied, the first refreshed, the second applied once more.
fn acts(rows: &[usize], values: &[usize]) -> Vec<Question> {
    let short = lists(rows, values, 1);
    let run = |first: &Lists, second: &Lists| {
        let (first, second) = (|act| (act, first.clone()), |act| (act, second.clone()));
        Question::Acts(vec![first(Act::Apply), second(Act::Apply), first(Act::Refresh), second(Act::Apply)])
    };
    short.iter().flat_map(|first| short.iter().map(move |second| run(first, second))).collect()
}

/// Searches of each named row and value, orders, walks of both kinds, and ejections of each short window.
fn asked_of_paths(rows: &[usize], named: &[(usize, usize)]) -> Vec<Question> {
    let rooms = [130, 130];
    let mut all = vec![Question::Order(0, 130), Question::Order(1, 130), Question::Walk(0, 3), Question::Walk(1, 4)];
    all.extend([3, 130].map(|room| Question::Onward(vec![0, 1, 2], REMATCHES.first(3), [room; 3])));
    all.extend([Question::EjectionWalk(0, 3, None), Question::EjectionStep(vec![0, 1, 2], EJECTIONS.first(3), None, rooms)]);
    all.extend([1, 2].map(|depth| Question::OwnEjections(0, 3, None, depth)));
    for &(row, value) in named {
        for depth in 0..3 {
            for displacement in [false, true] {
                for budget in [0, 1, 2, 3, 4, 5, EMPTY] {
                    let request = SearchRequest { row, value, depth, displacement, candidate_limit: None, budget };
                    all.push(Question::Search(request, rooms));
                }
            }
        }
    }
    let windows = lists(rows, &[0], 2).into_iter().map(|list| list.rows);
    all.extend(windows.flat_map(|window| [0, 1].map(|attempt| Question::Ejection(window.clone(), attempt, None, rooms))));
    all
}

/// Every cursor of an order, and every one that is off by one in a number, or far off.
fn cursors(windows: Windows, count: usize) -> Vec<Cursor> {
    let mut all = Vec::new();
    for longest in 1..=count + 1 {
        for len in windows.least - 1..=longest.max(windows.least) + 1 {
            for start in 0..=count + 1 {
                all.extend((0..=(windows.tries)(len) + 1).map(|variant| Cursor { start, len, variant, longest }));
            }
        }
    }
    let fitting = windows.first(count.max(2));
    all.extend([
        Cursor { start: EMPTY, ..fitting },
        Cursor { len: EMPTY, ..fitting },
        Cursor { variant: EMPTY, ..fitting },
        Cursor { longest: EMPTY, ..fitting },
        Cursor { start: EMPTY - 2, longest: EMPTY, ..fitting },
    ]);
    all
}

/// An order walked from its first cursors on, with rooms that stop it for one reason or another, or do not.
fn walks(order: &[usize]) -> Vec<Question> {
    let rooms: [WalkRooms; 10] =
        [[4, 4, 4], [5, 7, 4], [6, 6, 9], [7, 6, 4], [9, 9, 9], [40, 40, 4], [40, 40, 40], [3, 4, 4], [4, 3, 4], [4, 4, 3]];
    let all = (2..=order.len().max(2)).map(|longest| REMATCHES.first(longest));
    all.flat_map(|cursor| rooms.map(|rooms| Question::Onward(order.to_vec(), cursor, rooms))).collect()
}

/// Of an order every ejection cursor; with few candidates offered, or too little room, the first ones.
fn ejection_steps(order: &[usize]) -> Vec<Question> {
    let step = |cursor, limit, rooms| Question::EjectionStep(order.to_vec(), cursor, limit, rooms);
    let mut all: Vec<Question> = cursors(EJECTIONS, order.len()).into_iter().map(|cursor| step(cursor, None, [6, 6])).collect();
    for longest in 2..=order.len().max(2) {
        let first = EJECTIONS.first(longest);
        all.extend([Some(0), Some(1), Some(2), Some(EMPTY - 1)].map(|limit| step(first, limit, [4, 5])));
        all.extend([[3, 4], [4, 3]].map(|rooms| step(first, None, rooms)));
    }
    all
}

/// Walks over ejection windows, beside which the original's own are asked by several depths.
fn ejection_walks() -> Vec<Question> {
    let mut all = Vec::new();
    for (offset, size) in [(0, 0), (0, 2), (1, 2), (0, 3), (2, 3), (0, 4), (3, 4), (1, EMPTY)] {
        all.extend([None, Some(1), Some(2)].map(|limit| Question::EjectionWalk(offset, size, limit)));
        all.extend([0, 1, 2, 3].map(|depth| Question::OwnEjections(offset, size, None, depth)));
        all.push(Question::OwnEjections(offset, size, Some(2), 2));
    }
    all
}

/// Orders and rotations, every cursor of several orders, of both kinds, walks, ejections of every window of at most three rows.
fn asked_of_windows() -> Vec<Question> {
    let rooms = [6, 6];
    let mut all: Vec<Question> = [0, 1, 2, 3, 4, 5, 7, 8, 9, 1 << 63, EMPTY - 1, EMPTY].map(|offset| Question::Order(offset, 6)).to_vec();
    let orders: [&[usize]; 8] = [&[], &[0, 1], &[0, 1, 2], &[0, 1, 2, 3], &[3, 1, 0, 2], &[0, 1, 0, 2], &[0, 9, 1, 2], &[EMPTY, 3, 2, 2]];
    let rematches = |order: &[usize]| cursors(REMATCHES, order.len());
    for order in orders {
        all.extend(rematches(order).into_iter().map(|cursor| Question::Step(order.to_vec(), cursor, rooms)));
    }
    for order in &orders[3..6] {
        all.extend(rematches(order).into_iter().map(|cursor| Question::Onward(order.to_vec(), cursor, [4, 5, 6])));
    }
    for order in orders {
        all.extend(walks(order));
        all.extend(ejection_steps(order));
    }
    all.extend(ejection_walks());
    all.extend([0, 1, 2, 3, 4, EMPTY].into_iter().flat_map(|size| [0, 1, 2, 3].map(|offset| Question::Walk(offset, size))));
    for window in lists(&[0, 1, 2, 3, 4], &[0], 3).into_iter().map(|list| list.rows) {
        for attempt in [0, 1, 2, EMPTY] {
            all.extend([None, Some(0), Some(1), Some(2)].map(|limit| Question::Ejection(window.clone(), attempt, limit, [3, 3])));
        }
    }
    all
}

fn asked(rows: &[usize], values: &[usize], longest: usize, named: &[(usize, usize)]) -> Vec<Question> {
    let mut all = vec![Question::Tables, Question::Admit, Question::Build, Question::Sound, Question::Conflicts([130, 130])];
    for list in lists(rows, values, longest) {
        all.extend(named.iter().map(|&(row, value)| Question::Reinsert(list.clone(), row, value)));
        all.push(Question::Refresh(vec![list.clone()]));
        all.push(Question::Apply(list.clone()));
        all.push(Question::Final(list));
    }
    all.extend(acts(rows, values));
    all.extend(asked_of_paths(rows, named));
    all
}

const STAMP: &[u8] = b"20240229T235960Z";

/// 128 days one behind the other, each row's own, all one driver's; of all such boards the last has fewer.
fn days(number: u64) -> (Tables, Roster) {
    let first = 128 * number as usize;
    let rows = (LAST_DAY + 1 - first).min(128);
    let mut tables = Tables::blank(rows, 1);
    tables.sequence = (first..first + rows).map(Some).collect();
    (tables, vec![Some(0); rows])
}

/// Three rows, of which the middle one is another driver's: the first driver has no day, two, or one of them too late.
fn three_days(number: u64) -> (Tables, Roster) {
    let mut tables = Tables::blank(3, 2);
    let [first, last] = [[None, None], [Some(0), Some(LAST_DAY)], [Some(11_016), Some(LAST_DAY + 1)]][number as usize];
    tables.sequence = vec![first, None, None, Some(0), last, None];
    (tables, vec![Some(0), Some(1), Some(0)])
}

/// Every stamp with two fields around their bounds, with an octet changed, and of other lengths; every room; every driver.
fn asked_of_stamps() -> Vec<Question> {
    let mut stamps: Vec<Vec<u8>> = Vec::new();
    for year in ["0000", "0001", "0004", "0100", "0400", "1582", "1900", "1969", "1970", "2000", "2023", "2024", "2100", "2400", "9999"] {
        let dates = (0..=13).flat_map(|month| [0, 1, 28, 29, 30, 31, 32, 99].map(|day| format!("{year}{month:02}{day:02}T000000Z")));
        stamps.extend(dates.map(String::into_bytes));
    }
    for (hour, minute) in [0, 9, 10, 19, 20, 23, 24, 99].into_iter().flat_map(|hour| [0, 59, 60, 99].map(|minute| (hour, minute))) {
        stamps.extend([0, 59, 60, 61, 99].map(|second| format!("20240229T{hour:02}{minute:02}{second:02}Z").into_bytes()));
    }
    for at in 0..STAMP.len() {
        stamps.extend((0..=255).map(|octet| [&STAMP[..at], &[octet], &STAMP[at + 1..]].concat()));
        stamps.extend([STAMP[..at].to_vec(), [&STAMP[..at], &STAMP[at + 1..]].concat(), [&STAMP[..at], b"0", &STAMP[at..]].concat()]);
    }
    stamps.extend([b"Z", b"0", b"\0", b"\n"].map(|more| [STAMP, more].concat()));
    let mut all: Vec<Question> = stamps.into_iter().map(|stamp| Question::DriverCalendar(0, Octets(stamp), MOST_OCTETS)).collect();
    all.extend((0..400).map(|room| Question::DriverCalendar(0, Octets(STAMP.to_vec()), room)));
    all.extend([0, 1, 2, 3, 64, EMPTY - 1, EMPTY].map(|driver| Question::DriverCalendar(driver, Octets(STAMP.to_vec()), 400)));
    all.extend([0, 1, 2].map(|driver| Question::CalendarBack(driver, Octets(STAMP.to_vec()))));
    all
}

/// One object, whole, with every rooms; cut off anywhere; with a fold anywhere, of both blanks, once and twice, or with half of one; with an octet anywhere changed to any other, taken out or put twice; with a line taken out, put twice, or set behind another.
fn asked_of_objects() -> Vec<Question> {
    let text = object(STAMP, &[(9, 0), (127, LAST_DAY)]);
    let mut texts: Vec<Vec<u8>> = Vec::new();
    for at in 0..=text.len() {
        let (front, rest) = text.split_at(at);
        texts.push(front.to_vec());
        for fold in [&b"\r\n "[..], b"\r\n\t", b"\r\n \r\n\t", b"\r\n  ", b"\n ", b"\r ", b"\r\n", b"\r\n\x0b"] {
            texts.push([front, fold, rest].concat());
        }
        if let Some((octet, behind)) = rest.split_first() {
            texts.extend((0..=255).map(|other| [front, &[other], behind].concat()));
            texts.extend([[front, behind].concat(), [front, &[*octet], rest].concat()]);
        }
    }
    let starts = line_starts(&text);
    let lines: Vec<&[u8]> = starts.windows(2).map(|pair| &text[pair[0]..pair[1]]).collect();
    for i in 0..lines.len() {
        texts.push([&lines[..i], &lines[i + 1..]].concat().concat());
        for j in 0..lines.len() {
            let mut swapped = lines.clone();
            swapped.swap(i, j);
            texts.push(swapped.concat());
            texts.push([&lines[..j], &[lines[i]], &lines[j..]].concat().concat());
        }
    }
    let mut all: Vec<Question> = texts.into_iter().map(|text| Question::ReadCalendar(Octets(text), [2, 3])).collect();
    all.extend((0..16).map(|rooms| Question::ReadCalendar(Octets(text.clone()), [rooms / 4, rooms % 4])));
    all
}

pub const FAMILIES: [Family; 10] = [
    Family {
        name: "no row or no value",
        boards: 6 * 8,
        board: nothing,
        questions: || asked(&[0, 1], &[EMPTY, 0, 1], 2, &[(0, 0), (1, 0), (0, EMPTY)]),
    },
    Family {
        name: "two rows, one value",
        boards: 96 * 96 * 5,
        board: two_by_one,
        questions: || asked(&[0, 1, 2], &[EMPTY, 0, 1], 2, &[(0, 0), (1, 0)]),
    },
    Family {
        name: "one row, two values",
        boards: 4 * 18 * 18 * 3 * 2,
        board: one_by_two,
        questions: || asked(&[0, 1], &[EMPTY, 0, 1, 2], 2, &[(0, 0), (0, 1), (1, 0), (0, 2)]),
    },
    Family {
        name: "three rows, one value",
        boards: 12 * 12 * 12 * 65,
        board: three_by_one,
        questions: || asked(&[0, 1, 2], &[EMPTY, 0], 2, &[(0, 0), (2, 0)]),
    },
    Family { name: "four rows, three values", boards: 256 * 9 * 2 * 2, board: four_by_three, questions: asked_of_windows },
    Family { name: "chains", boards: CHAINS, board: chain, questions: asked_of_chains },
    Family { name: "many rows", boards: 8, board: many_rows, questions: asked_of_many_rows },
    Family {
        name: "days",
        boards: (LAST_DAY as u64 + 1).div_ceil(128),
        board: days,
        questions: || vec![Question::CalendarBack(0, Octets(STAMP.to_vec()))],
    },
    Family { name: "stamps", boards: 3, board: three_days, questions: asked_of_stamps },
    Family { name: "objects", boards: 1, board: |_| (Tables::blank(0, 0), Roster::new()), questions: asked_of_objects },
];
