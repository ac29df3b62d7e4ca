//! Which boards and questions the sample has: every size at a boundary asked for every entry, then random ones, of which no sort of answer may crowd out the others.
use super::large;
use super::lending::{Described, Lending};
use super::line::{self, replay_cell};
use crate::differ::boards;
use crate::differ::chains::Aim;
use crate::differ::entries::cycles::cursor_of;
use crate::differ::entries::verdicts::is_clear;
use crate::differ::judge::expected;
use crate::differ::lent::{pack, Damage, Lent};
use crate::differ::question::{Kind, Question, Seen, KINDS};
use crate::differ::questions::Asked;
use crate::differ::random::Random;
use crate::differ::run::{any_kind, damageable, Counts, WEIGHTS};
use crate::tables::{Roster, Tables};
use crate::{Cursor, Original, SearchRequest};
use std::collections::HashMap;

/// Boards that are asked for every entry, whatever the seed.
const SIZES: [(usize, usize); 14] =
    [(0, 0), (0, 1), (0, 64), (1, 0), (2, 0), (1, 1), (1, 2), (2, 1), (2, 2), (1, 63), (1, 64), (2, 63), (2, 64), (3, 2)];
const LARGE: [(usize, usize); 12] =
    [(127, 0), (128, 0), (127, 1), (128, 1), (128, 2), (127, 8), (128, 8), (40, 63), (127, 63), (128, 63), (127, 64), (128, 64)];

/// Entries that came later, those together that came together: the first have a share at the end of the sample, the others a list of their own. Each is drawn from numbers of its own, so that the answers before stay as they are.
const LATER: [&[Kind]; 3] = [
    &[Kind::NewEjectionCursor, Kind::EjectionStep, Kind::EjectionWalk],
    &[Kind::Apply, Kind::Acts],
    &[Kind::DriverCalendar, Kind::ReadCalendar],
];

/// One answer of the sample in so many is in that share.
const SHARE: u64 = 12;

/// A list of their own has one answer for so many of the sample; that of calendars, whose lines are long, for so many.
const OWN: u64 = 10;
const CALENDARS: u64 = 28;

/// The share of a kind; 0 is that of the first entries.
fn share_of(kind: Kind) -> usize {
    LATER.iter().position(|kinds| kinds.contains(&kind)).map_or(0, |at| at + 1)
}

/// Of kinds, with what is told of each, those that lines can say and that are in this share.
fn said<T: Copy>(kinds: impl IntoIterator<Item = (Kind, T)>, share: usize) -> Vec<(Kind, T)> {
    kinds.into_iter().filter(|(kind, _)| line::says(*kind) && share_of(*kind) == share).collect()
}

/// One random board in so many is a chain.
const CHAINS: usize = 2;

/// How many questions a random board is asked, by share: acts in turn are several calls. Of a chain half as many, so that there are many chains.
const QUESTIONS: [usize; 1 + LATER.len()] = [40, 40, 8, 12];

/// Of a thousand questions so many are asked of damaged slices.
const DAMAGED: usize = 250;

/// How many answers of one sort are taken before they become rare.
const ENOUGH: usize = 70;
/// The same of searches, which are told apart by more, and of calendars that are refused.
const ENOUGH_SEARCHES: usize = 14;
const ENOUGH_REFUSED: usize = 20;

/// A board with many rows or cells is said by palettes, or not taken.
const MOST_ROWS: usize = 40;
const MOST_CELLS: usize = 150;
const MOST_CHAIN_CELLS: usize = 250;
/// The same of a text that is read.
pub const MOST_OCTETS: usize = 350;

/// What answers have in common: kind, code, flag and length of the list, whether the board is large; of a search also how many asks it made, by their binary digits, and whether the final test refused its list.
type Sort = (usize, u8, u8, usize, bool, u32, bool);

struct Board {
    described: Described,
    tables: Tables,
    roster: Roster,
    aim: Option<Aim>,
}

impl Board {
    fn plain(tables: Tables, roster: Roster, aim: Option<Aim>, salt: u64) -> Board {
        Board { described: Described::plain(pack(&tables, &roster, salt)), tables, roster, aim }
    }
    fn large(random: &mut Random, rows: usize, values: usize) -> Board {
        let (described, roster) = large::board(random, rows, values);
        Board { tables: described.lent.unpack(), described, roster, aim: None }
    }
}

/// The answer of the original, or of the model of the refusals, on slices that may be damaged.
pub fn answer(lent: &Described, question: &Question) -> Vec<Seen> {
    let mut asked = lent.lent.clone();
    if *question == Question::Build {
        // the replay hands build two slices of what stands in its outputs before a call
        asked.records = (0..asked.records.len()).map(replay_cell).collect();
        asked.members = (0..asked.members.len()).map(replay_cell).collect();
    }
    expected(&asked, question)
}

/// Whether a search without a move found a list, which the final test refused.
pub fn failing(lent: &Lent, question: &Question, seen: &Seen) -> bool {
    let Question::Search(request, _) = question else { return false };
    (seen.code, seen.flag) == (0, 0) && Original::new(&lent.unpack(), &lent.held()).found_list(request).is_some()
}

/// The flag by which answers are told apart. Of soundness it is whether keys and pairs are in order: so the questions stay those that were drawn when soundness asked no more.
fn flag_of(lent: &Lent, question: &Question, seen: &Seen) -> u8 {
    match question {
        Question::Sound if seen.code == 0 => u8::from(is_clear(lent, &Original::new(&lent.unpack(), &lent.held()))),
        _ => seen.flag,
    }
}

pub struct Sampler {
    pub text: String,
    pub counts: Counts,
    pub lending: Lending,
    random: Random,
    seed: u64,
    sorts: HashMap<Sort, usize>,
    /// Whether every answer is taken, whatever its sort.
    all: bool,
    /// How many answers are taken.
    most: u64,
}

impl Sampler {
    pub fn new(seed: u64) -> Sampler {
        Sampler {
            text: String::new(),
            counts: Counts::default(),
            random: Random::new(seed),
            seed,
            lending: Lending::nothing(),
            sorts: HashMap::new(),
            all: false,
            most: 0,
        }
    }

    /// Whether an answer of this sort is wanted still.
    fn wanted(&mut self, kind: Kind, seen: &Seen, flag: u8, large: bool, failing: bool) -> bool {
        let listed = line::front(&seen.outputs[0]).len();
        let searched = kind == Kind::Search && seen.code == 0;
        let (longest, asks, enough) = match share_of(kind) {
            0 if searched => (12, usize::BITS - seen.numbers[1].leading_zeros(), ENOUGH_SEARCHES),
            3 if seen.code != 0 => (6, 0, ENOUGH_REFUSED),
            _ => (6, 0, ENOUGH),
        };
        let taken = self.sorts.entry((kind as usize, seen.code, flag, listed.min(longest), large, asks, failing)).or_default();
        *taken += 1;
        self.all || *taken <= enough || self.random.chance(60)
    }

    /// One call: the question and the answer.
    fn call(&mut self, board: &Board, damaged: bool, question: &Question, goes_on: bool, seen: &Seen) {
        if self.counts.total() == self.most {
            return;
        }
        line::write(question, goes_on, seen, &mut self.text);
        self.counts.board(board.described.lent.rows, board.described.lent.values);
        self.counts.add(question.kind(), damaged, std::slice::from_ref(seen));
    }

    fn ask(&mut self, board: &Board, lent: &Described, damaged: bool, question: Question) {
        let large = board.described.lent.rows > MOST_ROWS;
        let seen = answer(lent, &question);
        let failing = failing(&lent.lent, &question, &seen[0]);
        let last = seen.last().expect("an answer");
        let flag = flag_of(&lent.lent, &question, last);
        if !self.wanted(question.kind(), last, flag, large, failing) || self.counts.total() == self.most {
            return;
        }
        if failing {
            self.counts.failing_list();
        }
        // a damage is said by the cells that it changes
        self.lending.lend(&board.described, &mut self.text);
        self.lending.lend(lent, &mut self.text);
        for (i, (call, one)) in question.calls().iter().zip(&seen).enumerate() {
            self.call(board, damaged, call, i != 0, one);
        }
    }

    /// Up to six steps of a walk, each from the cursor that the one before left.
    fn walk(&mut self, board: &Board, from: Cursor, step: impl Fn(Cursor) -> Question) {
        let mut at = from;
        for _ in 0..6 {
            let question = step(at);
            let next = cursor_of(&answer(&board.described, &question)[0].numbers[1..]);
            self.ask(board, &board.described, false, question);
            if next == at {
                break;
            }
            at = next;
        }
    }

    /// A question of the differ; on a large board the search has a budget, a refresh one list, whose index takes a thousand words, and of acts in turn there are two.
    fn question(&mut self, board: &Board, kind: Kind) -> Question {
        let asked = Asked { tables: &board.tables, roster: &board.roster, aim: board.aim };
        let mut original = Original::new(&board.tables, &board.roster);
        let question = asked.random(&mut self.random, kind, &mut original);
        match question {
            Question::Search(request, rooms) if board.tables.rows > MOST_ROWS => {
                Question::Search(SearchRequest { budget: request.budget.min(5000), ..request }, rooms)
            }
            Question::Refresh(mut lists) if board.tables.rows > MOST_ROWS => {
                lists.truncate(1);
                Question::Refresh(lists)
            }
            Question::Acts(mut acts) if board.tables.rows > MOST_ROWS => {
                acts.truncate(2);
                Question::Acts(acts)
            }
            Question::ReadCalendar(text, _) if text.0.len() > MOST_OCTETS => self.question(board, kind),
            other => other,
        }
    }

    fn random_question(&mut self, board: &Board, kind: Kind, damage: usize) {
        let question = self.question(board, kind);
        let rooms = [board.tables.rows; 2];
        let original = || Original::new(&board.tables, &board.roster);
        if let Question::Walk(offset, size) = question {
            let (first, order) = original().first_cursor(offset, size);
            return self.walk(board, first, |at| Question::Step(order.clone(), at, rooms));
        }
        if let Question::EjectionWalk(offset, size, limit) = question {
            let (first, order) = original().first_ejection_cursor(offset, size);
            return self.walk(board, first, |at| Question::EjectionStep(order.clone(), at, limit, rooms));
        }
        if !damageable(kind) || !self.random.chance(damage) {
            return self.ask(board, &board.described, false, question);
        }
        let mut lent = board.described.lent.clone();
        for _ in 0..self.random.pick(&[1, 1, 1, 2]) {
            Damage::random(&mut self.random, &board.described.lent).apply(&mut lent);
        }
        self.ask(board, &Described::plain(lent), true, question);
    }

    fn boundaries(&mut self, share: usize) {
        self.all = true;
        for (rows, values) in SIZES {
            let salt = self.random.next();
            let (tables, roster) = boards::sized(&mut self.random, rows, values);
            let board = Board::plain(tables, roster, None, salt);
            for (kind, _) in said(KINDS, share) {
                self.random_question(&board, kind, 0);
            }
        }
        for (rows, values) in LARGE {
            let board = Board::large(&mut self.random, rows, values);
            for (kind, _) in said(KINDS, share) {
                self.random_question(&board, kind, 0);
            }
        }
        self.all = false;
    }

    /// A random board that is not too long to say, with so many questions of these kinds.
    fn random_board(&mut self, kinds: &[Kind], questions: usize) {
        let (tables, roster, aim) = boards::any(&mut self.random, CHAINS);
        let most = if aim.is_some() { MOST_CHAIN_CELLS } else { MOST_CELLS };
        if tables.rows > MOST_ROWS || tables.rows * tables.values > most {
            return;
        }
        let salt = if self.random.chance(120) { self.random.next() } else { 0 };
        let board = Board::plain(tables, roster, aim, salt);
        for _ in 0..if aim.is_some() { questions / 2 } else { questions } {
            let kind = any_kind(&mut self.random, kinds, aim);
            self.random_question(&board, kind, DAMAGED);
        }
    }

    /// The boundaries, then random boards until there are so many answers, of one share.
    fn share(&mut self, share: usize, most: u64) {
        self.most = most;
        self.random = Random::new(self.seed + share as u64);
        self.boundaries(share);
        let kinds: Vec<Kind> = said(WEIGHTS, share).into_iter().flat_map(|w| vec![w.0; w.1]).collect();
        let mut boards = 0;
        while self.counts.total() < most {
            boards += 1;
            if boards % 25 == 0 {
                let (rows, values) = self.random.pick(&LARGE);
                let board = Board::large(&mut self.random, rows, values);
                for _ in 0..16 {
                    let kind = self.random.pick(&kinds);
                    self.random_question(&board, kind, DAMAGED);
                }
            } else {
                self.random_board(&kinds, QUESTIONS[share]);
            }
        }
    }

    /// So many answers, the share of the first later entries among them.
    pub fn sample(&mut self, cases: u64) {
        self.share(0, cases - cases / SHARE);
        self.share(1, cases);
        self.text.push_str("0\r\n");
    }

    /// A list of applications, and of refreshes in turn with them, in place of the text and the counts that were there.
    pub fn applications(&mut self, cases: u64) {
        self.text.clear();
        self.counts = Counts::default();
        self.share(2, cases / OWN);
        self.text.push_str("0\r\n");
    }

    /// A list of calendars in their place, of small boards whose sequence keys are days.
    pub fn calendars(&mut self, cases: u64) {
        self.text.clear();
        self.counts = Counts::default();
        self.most = cases / CALENDARS;
        self.random = Random::new(self.seed + 3);
        let kinds = [Kind::DriverCalendar, Kind::DriverCalendar, Kind::ReadCalendar];
        while self.counts.total() < self.most {
            let (rows, values) = (self.random.between(1, 3), self.random.between(1, 3));
            let (mut tables, roster) = boards::sized(&mut self.random, rows, values);
            boards::date(&mut self.random, &mut tables);
            let salt = if self.random.chance(120) { self.random.next() } else { 0 };
            let board = Board::plain(tables, roster, None, salt);
            for _ in 0..QUESTIONS[3] {
                let kind = self.random.pick(&kinds);
                self.random_question(&board, kind, DAMAGED);
            }
        }
        self.text.push_str("0\r\n");
    }
}
