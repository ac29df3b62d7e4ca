//! The original and the engine side by side, in one run, same boards, both built for release. Both are first seen to give the same answer. An entry validates tables and index at every call; so the validation alone is timed between the samples of the other two, and what stands behind it is the entry's time less that one.
mod applications;
mod boards;
mod calendars;
mod measure;
mod outputs;
mod reinsertions;
mod stack;
mod windows;

use measure::{times, Time};
use oracle::{Edit, Original};
use std::hint::black_box;
use turepawon::{layout, raw, Tables, EMPTY};

/// A board as both sides take it.
struct Board {
    tables: oracle::Tables,
    roster: oracle::Roster,
    packed: Tables,
    held: Vec<usize>,
    records: Vec<usize>,
    members: Vec<usize>,
}

impl Board {
    fn new((tables, roster): (oracle::Tables, oracle::Roster)) -> Board {
        let packed = boards::data(&tables).and_then(|data| Tables::new(&data)).expect("the board is well formed");
        let held: Vec<usize> = roster.iter().map(|v| v.unwrap_or(EMPTY)).collect();
        let mut records = vec![0; layout::records_length(tables.rows)];
        let mut members = vec![0; layout::members_length(tables.rows)];
        assert_eq!(raw::build_index(packed.lent(), &held, &mut records, &mut members), 0);
        Board { tables, roster, packed, held, records, members }
    }
    fn original(&self) -> Original<'_> {
        Original::new(&self.tables, &self.roster)
    }
    /// The validation that an entry begins with, by itself.
    fn admit(&self) {
        assert_eq!(raw::admit(self.packed.lent(), black_box(&self.records), &self.members), 0);
    }
}

fn slices(edits: &[Edit]) -> (Vec<usize>, Vec<usize>) {
    edits.iter().map(|e| (e.0, e.1.unwrap_or(EMPTY))).unzip()
}

/// Asked for, so that it is worked out.
fn keep<T>(answer: T) {
    black_box(answer);
}

fn both(time: Time) -> String {
    format!("{:.0} / {:.0}", time.best, time.median)
}

/// A line of the table, of the original, the entry, and the validation that the entry does, as often as it does it.
fn line(name: &str, [original, entry, validation]: [Time; 3]) {
    let behind = entry.less(validation);
    let ratio = |time: Time| format!("{:.2} / {:.2}", time.best / original.best, time.median / original.median);
    println!("| {name} | {} | {} | {} | {} | {} |", both(original), both(entry), ratio(entry), both(behind), ratio(behind));
}

/// What the original has no word for.
fn alone(name: &str, entry: Time, behind: Option<Time>) {
    println!("| {name} | | {} | | {} | |", both(entry), behind.map(both).unwrap_or_default());
}

fn final_test(name: &str, board: &Board, edits: &[Edit]) {
    let mut original = board.original();
    let (rows, values) = slices(edits);
    let ask = || {
        let mut answer = 2;
        let code = raw::assignment_feasible_after_edits(
            board.packed.lent(),
            &board.records,
            &board.members,
            black_box(&rows),
            &values,
            &mut answer,
        );
        assert_eq!(code, 0);
        answer == 1
    };
    assert_eq!(original.final_test(edits), ask(), "{name}");
    let mut first = || keep(original.final_test(black_box(edits)));
    line(name, times([&mut first, &mut || keep(ask()), &mut || board.admit()]));
}

fn reinsertion(name: &str, board: &Board, edits: &[Edit], row: usize, value: usize) {
    let mut original = board.original();
    let (rows, values) = slices(edits);
    let (records, members) = (&board.records, &board.members);
    let ask = || {
        let mut answer = 2;
        let code = raw::reinsert_value_allowed(board.packed.lent(), records, members, black_box(&rows), &values, row, value, &mut answer);
        assert_eq!(code, 0);
        answer == 1
    };
    assert_eq!(original.reinsert_test(edits, row, value), ask(), "{name}");
    let mut first = || keep(original.reinsert_test(black_box(edits), row, value));
    line(name, times([&mut first, &mut || keep(ask()), &mut || board.admit()]));
}

/// There is no index yet to be admitted: a build validates the tables alone.
fn build(name: &str, board: &Board) {
    let mut original = board.original();
    let (mut records, mut members) = (board.records.clone(), board.members.clone());
    let mut entry = || assert_eq!(raw::build_index(board.packed.lent(), black_box(&board.held), &mut records, &mut members), 0);
    let mut tables = || assert_eq!(raw::tables_refusal(black_box(board.packed.lent())), 0);
    line(name, times([&mut || original.rebuild(), &mut entry, &mut tables]));
}

/// There and back again, so that every call changes something.
fn refresh(name: &str, board: &Board, there: &[Edit]) {
    let back: Vec<Edit> = there.iter().map(|e| (e.0, board.roster[e.0])).collect();
    let mut original = board.original();
    let (mut records, mut members) = (board.records.clone(), board.members.clone());
    let lists = [slices(there), slices(&back)];
    let (mut a, mut b) = (0, 0);
    let mut first = || {
        original.refresh(black_box([there, &back][a % 2]));
        a += 1;
    };
    let mut second = || {
        let (rows, values) = &lists[b % 2];
        assert_eq!(raw::refresh_rows(board.packed.lent(), &mut records, &mut members, black_box(rows), values), 0);
        b += 1;
    };
    line(name, times([&mut first, &mut second, &mut || board.admit()]));
}

fn conflicts(name: &str, board: &Board) {
    let original = board.original();
    let (mut keys, mut rows) = (vec![0; 128], vec![0; 128]);
    let mut ask = || {
        let mut count = 0;
        let code = raw::capacity_conflicts(board.packed.lent(), &board.records, &board.members, &mut keys, &mut rows, &mut count);
        assert_eq!(code, 0);
        count
    };
    let listed: usize = original.conflicts().iter().map(|c| c.1.len()).sum();
    assert_eq!(listed, ask(), "{name}");
    line(name, times([&mut || keep(original.conflicts()), &mut || keep(ask()), &mut || board.admit()]));
}

fn validation(name: &str, board: &Board) {
    let mut tables = || assert_eq!(raw::tables_refusal(black_box(board.packed.lent())), 0);
    let [whole, tables] = times([&mut || board.admit(), &mut tables]);
    alone(&format!("validation alone (admit), {name}"), whole, None);
    alone(&format!("of it the tables, {name}"), tables, None);
}

fn soundness(name: &str, board: &Board) {
    let mut entry = || {
        let mut answer = 2;
        assert_eq!(raw::roster_sound(board.packed.lent(), black_box(&board.records), &board.members, &mut answer), 0);
        keep(answer);
    };
    let [entry, validation] = times([&mut entry, &mut || board.admit()]);
    alone(name, entry, Some(entry.less(validation)));
}

/// Four duties of one day go round among its four drivers.
fn round() -> Vec<Edit> {
    (0..4).map(|i| (32 * i, Some(16 * ((i + 1) % 4)))).collect()
}

/// The same, but the last of them gets the driver that the first has got: a key with two holders.
fn crowded_round() -> Vec<Edit> {
    let mut edits = round();
    edits[3].1 = edits[0].1;
    edits
}

fn main() {
    if std::env::args().nth(1).as_deref() == Some("stack") {
        return stack::table();
    }
    let (plain, ruled) = (Board::new(boards::week(false)), Board::new(boards::week(true)));
    let full = Board::new(boards::full());
    let (eight, forty_two, doubled) = (Board::new(boards::crowd(16)), Board::new(boards::crowd(3)), Board::new(boards::doubled()));
    let moved: Vec<Edit> = (0..4).map(|row| (row, Some(1))).collect();
    println!("ns a call, best / median of alternating samples; ratios are to the original\n");
    println!("| work, 128 rows × 64 values | original | entry | ratio | entry less admit | ratio |\n|---|---|---|---|---|---|");
    final_test("final test, 4 edits", &plain, &round());
    final_test("final test, 4 edits, edge rule", &ruled, &round());
    final_test("final test, 4 edits, edge rule, 8 rows a place", &eight, &moved);
    final_test("final test, 4 edits, edge rule, 42 rows a place", &forty_two, &moved);
    reinsertion("reinsertion test, 4 edits", &plain, &round(), 0, 16);
    reinsertion("reinsertion test, 4 edits, edge rule", &ruled, &round(), 0, 16);
    build("build", &ruled);
    build("build, all rows with one driver", &eight);
    refresh("refresh, 4 rows", &ruled, &round());
    refresh("refresh, 4 rows, all with one driver", &eight, &moved);
    applications::apply("4 rows", &plain, &round());
    applications::apply("4 rows, edge rule", &ruled, &round());
    applications::apply("4 rows, edge rule, 8 rows a place", &eight, &moved);
    applications::apply("4 rows, edge rule, the list fails", &ruled, &crowded_round());
    conflicts("conflicts, none", &plain);
    conflicts("conflicts, 64 keys of two holders", &doubled);
    soundness("soundness of the roster, edge rule", &ruled);
    calendars::calendar(1);
    calendars::calendar(128);
    validation("64 candidates a row", &ruled);
    validation("all rows with one driver", &eight);
    windows::order("order, rotated by 5", &plain, 5);
    windows::rematch_walk("rematch walk, windows of 3", &plain, 3);
    windows::rematch_walk("rematch walk, windows of 3, edge rule", &ruled, 3);
    windows::rematch_walk("rematch walk, windows of 3 to 6, edge rule", &ruled, 6);
    windows::walk_in_one_call("rematch walk, validated once, windows of 3", &plain, 3);
    windows::walk_in_one_call("rematch walk, validated once, windows of 3, edge rule", &ruled, 3);
    windows::walk_in_one_call("rematch walk, validated once, windows of 3 to 6, edge rule", &ruled, 6);
    let day: Vec<usize> = (0..4).map(|i| 32 * i).collect();
    windows::ejection("ejection, 4 rows", &plain, &day, 5);
    windows::ejection("ejection, 4 rows, edge rule", &ruled, &day, 5);
    windows::ejection("ejection, 16 rows, edge rule", &ruled, &(0..16).map(|i| 8 * i).collect::<Vec<_>>(), 5);
    ejection_walks(&plain, &ruled);
    windows::search("search, depth 1", &Board::new(boards::strict(false)), 0, 16, 1, false);
    windows::search("search, depth 1, edge rule", &Board::new(boards::strict(true)), 0, 16, 1, false);
    windows::search("search, depth 3, no way out", &full, 0, 1, 3, false);
    searches();
}

/// Every try gives a move where drivers are free, and few do where all are taken.
fn ejection_walks(plain: &Board, ruled: &Board) {
    reinsertions::walk("ejection walk, windows of 2 to 4", plain, 4);
    reinsertions::walk("ejection walk, windows of 2 to 4, edge rule", ruled, 4);
    reinsertions::walk("ejection walk, windows of 2 to 4, nobody free", &Board::new(boards::taken(false, 8)), 4);
    reinsertions::walk("ejection walk, windows of 2 to 4, nobody free, edge rule", &Board::new(boards::taken(true, 8)), 4);
}

/// The last row asks for the first driver; nobody can make way, so the whole of a depth is searched.
fn searches() {
    let asks = |name: &str, of: (oracle::Tables, oracle::Roster), depth, displacement| {
        windows::search(name, &Board::new(of), 127, 0, depth, displacement);
    };
    asks("search, depth 3, 64 candidates", boards::taken(false, 64), 3, false);
    for rule in [false, true] {
        let with = if rule { ", edge rule" } else { "" };
        asks(&format!("search, depth 3, 8 candidates{with}"), boards::taken(rule, 8), 3, false);
        asks(&format!("search, depth 3, 8 candidates, displacing{with}"), boards::taken_twice(rule, 8), 3, true);
        asks(&format!("search, depth 8, 4 candidates{with}"), boards::taken(rule, 4), 8, false);
        asks(&format!("search, depth 8, 4 candidates, displacing{with}"), boards::taken_twice(rule, 4), 8, true);
    }
}
