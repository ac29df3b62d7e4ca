//! Runs: random cases from a seed, and the small families whole or thinned out; counts of what was asked and answered.
use super::boards;
use super::chains::Aim;
use super::judge::{compare, expected, expected_of, Disagreement};
use super::lent::{pack, Damage, Lent, EMPTY};
use super::library::Library;
use super::question::{Kind, Question, Seen, FLAG_BEFORE, KINDS, NUMBER_BEFORE};
use super::questions::Asked;
use super::random::Random;
use super::shrink::{smallest, Case};
use super::small::{Family, FAMILIES};
use crate::tables::{Roster, Tables};
use crate::Original;
use std::fmt::Write;

const LAST_REFUSAL: usize = 17;

#[derive(Clone, Copy, Default)]
struct Count {
    cases: u64,
    damaged: u64,
    yes: u64,
    no: u64,
    some: u64,
    refused: [u64; LAST_REFUSAL + 1],
}

/// Bounds of the groups in which boards are counted: up to and with this number.
const ROWS: [usize; 8] = [0, 1, 2, 12, 40, 126, 127, 128];
const VALUES: [usize; 6] = [0, 1, 2, 62, 63, 64];
/// The same of a search's moves, by edits and by rows that get a value.
const EDITS: [usize; 12] = [0, 1, 2, 3, 4, 5, 6, 7, 8, 9, 18, 128];

#[derive(Default)]
pub struct Counts {
    kinds: [Count; KINDS.len()],
    rows: [u64; ROWS.len()],
    values: [u64; VALUES.len()],
    edits: [u64; EDITS.len()],
    assigned: [u64; EDITS.len()],
    /// Searches that find a list which the final test refuses; of the differ's, those on whole slices.
    failing: u64,
}

/// The groups that are not empty, each with its number of cases.
fn groups(bounds: &[usize], counts: &[u64]) -> String {
    let name = |i: usize| match i {
        0 => "0".to_string(),
        _ if bounds[i] == bounds[i - 1] + 1 => bounds[i].to_string(),
        _ => format!("{}-{}", bounds[i - 1] + 1, bounds[i]),
    };
    let groups: Vec<String> = (0..bounds.len()).filter(|&i| counts[i] != 0).map(|i| format!("{}: {}", name(i), counts[i])).collect();
    groups.join(", ")
}

impl Counts {
    pub fn total(&self) -> u64 {
        self.kinds.iter().map(|c| c.cases).sum()
    }
    pub fn of(&self, kind: Kind) -> u64 {
        self.kinds[kind as usize].cases
    }
    pub fn add(&mut self, kind: Kind, damaged: bool, seen: &[Seen]) {
        let count = &mut self.kinds[kind as usize];
        count.cases += 1;
        count.damaged += u64::from(damaged);
        if kind == Kind::Search && (seen[0].code, seen[0].flag) == (0, 1) {
            let values = &seen[0].outputs[1][..seen[0].numbers[0]];
            let assigned = values.iter().filter(|&&value| value != EMPTY).count();
            self.edits[EDITS.partition_point(|&bound| bound < values.len())] += 1;
            self.assigned[EDITS.partition_point(|&bound| bound < assigned)] += 1;
        }
        for one in seen {
            match (one.code, one.flag) {
                (0, FLAG_BEFORE) => count.some += u64::from(one.numbers.first().is_none_or(|&n| n != 0 && n != NUMBER_BEFORE)),
                (0, 0) => count.no += 1,
                (0, _) => count.yes += 1,
                (code, _) => count.refused[usize::from(code).min(LAST_REFUSAL)] += 1,
            }
        }
    }
    /// A search that found a list which the final test refused.
    pub fn failing_list(&mut self) {
        self.failing += 1;
    }
    pub fn failing_lists(&self) -> u64 {
        self.failing
    }
    /// How many moves of searches have so many edits, of 1 to 9.
    pub fn moves(&self, edits: usize) -> u64 {
        EDITS.iter().position(|&bound| bound == edits).map_or(0, |group| self.edits[group])
    }
    /// Which board a case is asked of, before any damage.
    pub fn board(&mut self, rows: usize, values: usize) {
        self.rows[ROWS.partition_point(|&bound| bound < rows)] += 1;
        self.values[VALUES.partition_point(|&bound| bound < values)] += 1;
    }
    /// What searches find: how long their moves are, and how many lists are found that the final test refuses.
    pub fn searches(&self) -> String {
        let (edits, assigned) = (groups(&EDITS, &self.edits), groups(&EDITS, &self.assigned));
        format!("moves by edits         {edits}\nmoves by assigned rows {assigned}\nlists that fail        {}\n", self.failing)
    }
    /// Cases by the size of their board, what searches find, then one line a kind that was asked. "done" counts calls that are answered without yes or no, of listings those that are not empty.
    pub fn table(&self) -> String {
        let mut text = format!("cases by rows   {}\ncases by values {}\n", groups(&ROWS, &self.rows), groups(&VALUES, &self.values));
        text += &self.searches();
        text += &format!(
            "{:38} {:>11} {:>10} {:>11} {:>11} {:>11}  refused by number\n",
            "entry", "cases", "damaged", "yes/move", "no/none", "done"
        );
        for (kind, name) in KINDS {
            let c = &self.kinds[kind as usize];
            if c.cases == 0 {
                continue;
            }
            let refused: Vec<String> =
                (1..=LAST_REFUSAL).filter(|&n| c.refused[n] != 0).map(|n| format!("{n}: {}", c.refused[n])).collect();
            writeln!(text, "{name:38} {:>11} {:>10} {:>11} {:>11} {:>11}  {}", c.cases, c.damaged, c.yes, c.no, c.some, refused.join(", "))
                .expect("text");
        }
        text
    }
}

/// One random board in so many is a chain.
const CHAINS: usize = 8;

/// Of a thousand random boards that are no chains so many have days for sequence keys; where calendars alone are asked, so many.
const DATED: usize = 80;
const DATED_ALONE: usize = 700;

/// A family of at most so many boards is asked whole.
const FEW: u64 = 50;

/// How often each kind comes, of all. The two entries that are lent a struct are asked behind those that are not, the same questions.
pub const WEIGHTS: [(Kind, usize); KINDS.len()] = [
    (Kind::Tables, 2),
    (Kind::Admit, 3),
    (Kind::Build, 3),
    (Kind::Refresh, 6),
    (Kind::Final, 12),
    (Kind::Reinsert, 8),
    (Kind::Sound, 2),
    (Kind::Conflicts, 3),
    (Kind::Search, 10),
    (Kind::Ceiling, 1),
    (Kind::Order, 2),
    (Kind::NewCursor, 1),
    (Kind::Step, 6),
    (Kind::Walk, 1),
    (Kind::Ejection, 6),
    (Kind::Onward, 3),
    (Kind::Records, 0),
    (Kind::StepAt, 0),
    (Kind::NewEjectionCursor, 1),
    (Kind::EjectionStep, 6),
    (Kind::EjectionWalk, 2),
    (Kind::OwnEjections, 1),
    (Kind::Apply, 8),
    (Kind::Acts, 4),
    (Kind::DriverCalendar, 4),
    (Kind::ReadCalendar, 4),
    (Kind::CalendarBack, 1),
];

/// The next question's kind: of a chain mostly a search.
pub fn any_kind(random: &mut Random, kinds: &[Kind], aim: Option<Aim>) -> Kind {
    if aim.is_some() && kinds.contains(&Kind::Search) && random.chance(800) {
        return Kind::Search;
    }
    random.pick(kinds)
}

/// The same on a board whose sequence keys are days: mostly of calendars.
fn dated_kind(random: &mut Random, kinds: &[Kind]) -> Kind {
    let calendars: Vec<Kind> = kinds.iter().copied().filter(|&kind| of_calendars(kind)).collect();
    if calendars.is_empty() || random.chance(200) {
        return random.pick(kinds);
    }
    random.pick(&calendars)
}

fn of_calendars(kind: Kind) -> bool {
    matches!(kind, Kind::DriverCalendar | Kind::ReadCalendar | Kind::CalendarBack)
}

/// Whether a kind can be asked of slices that are damaged: a walk is many calls, and four kinds take no slices.
pub fn damageable(kind: Kind) -> bool {
    let walk = matches!(kind, Kind::Walk | Kind::EjectionWalk | Kind::OwnEjections);
    !walk && !matches!(kind, Kind::Ceiling | Kind::NewCursor | Kind::NewEjectionCursor | Kind::ReadCalendar)
}

/// A board as it is asked: plain, packed, and packed once more to hand out.
struct Board {
    tables: Tables,
    roster: Roster,
    salt: u64,
    whole: Lent,
    lent: Lent,
}

impl Board {
    fn new(tables: Tables, roster: Roster, salt: u64) -> Board {
        let whole = pack(&tables, &roster, salt);
        Board { lent: whole.clone(), tables, roster, salt, whole }
    }
    fn case(&self, damage: &[Damage], question: Question) -> Case {
        Case { tables: self.tables.clone(), roster: self.roster.clone(), salt: self.salt, damage: damage.to_vec(), question }
    }
}

/// Slices that are handed out, and as they are; the board's rows and values before any damage.
struct Lending<'b> {
    lent: &'b mut Lent,
    whole: &'b Lent,
    size: (usize, usize),
    damaged: bool,
}

pub struct Run<'a> {
    pub library: &'a dyn Library,
    pub counts: Counts,
    /// What is asked.
    kinds: Vec<Kind>,
}

/// A case that disagrees, as it was met.
pub type Met = Box<Case>;

impl<'a> Run<'a> {
    /// Asks everything.
    pub fn new(library: &'a dyn Library) -> Run<'a> {
        Run::of(library, &KINDS.map(|(kind, _)| kind))
    }
    /// Asks these kinds alone.
    pub fn of(library: &'a dyn Library, kinds: &[Kind]) -> Run<'a> {
        Run { library, counts: Counts::default(), kinds: kinds.to_vec() }
    }

    fn damaged(&mut self, random: &mut Random, board: &Board, question: Question) -> Result<(), Met> {
        let damage: Vec<Damage> = (0..random.pick(&[1, 1, 1, 2, 3])).map(|_| Damage::random(random, &board.whole)).collect();
        let mut whole = board.whole.clone();
        damage.iter().for_each(|d| d.apply(&mut whole));
        let answer = expected(&whole, &question);
        let lending = Lending { lent: &mut whole.clone(), whole: &whole, size: (board.whole.rows, board.whole.values), damaged: true };
        self.put(lending, answer, question).map_err(|question| Box::new(board.case(&damage, question)))
    }

    fn plain(&mut self, board: &mut Board, original: &mut Original, question: Question) -> Result<(), Met> {
        let answer = expected_of(&board.whole, original, &question);
        if let Question::Search(request, _) = &question {
            let without_move = (answer[0].code, answer[0].flag) == (0, 0);
            if without_move && original.found_list(request).is_some() {
                self.counts.failing_list();
            }
        }
        let Board { lent, whole, .. } = board;
        let lending = Lending { size: (whole.rows, whole.values), lent, whole, damaged: false };
        let put = self.put(lending, answer, question);
        put.map_err(|question| Box::new(board.case(&[], question)))
    }

    /// The same question to the entry that is lent a struct, if there is one and it is asked.
    fn form_by_struct(&self, question: &Question) -> Option<Question> {
        question.by_struct().filter(|other| self.kinds.contains(&other.kind()))
    }

    /// Puts a question, and behind it the same to the entry that is lent a struct: the answer must be the same. Gives back the question that is answered otherwise.
    fn put(&mut self, lending: Lending, answer: Vec<Seen>, question: Question) -> Result<(), Question> {
        let Lending { lent, whole, size, damaged } = lending;
        let by_struct = self.form_by_struct(&question);
        for form in std::iter::once(question).chain(by_struct) {
            self.counts.board(size.0, size.1);
            match compare(self.library, lent, whole, answer.clone(), &form) {
                Ok(seen) => self.counts.add(form.kind(), damaged, &seen),
                Err(_) => return Err(form),
            }
        }
        Ok(())
    }

    fn random_board(&mut self, random: &mut Random, kinds: &[Kind]) -> Result<(), Met> {
        let (mut tables, roster, aim) = boards::any(random, CHAINS);
        let alone = kinds.iter().all(|&kind| of_calendars(kind));
        let dated = aim.is_none() && random.chance(if alone { DATED_ALONE } else { DATED });
        if dated {
            boards::date(random, &mut tables);
        }
        let salt = random.next();
        let mut board = Board::new(tables, roster, salt);
        let (tables, roster) = (board.tables.clone(), board.roster.clone());
        let mut original = Original::new(&tables, &roster);
        let asked = Asked { tables: &tables, roster: &roster, aim };
        // a large board costs as much as many small ones
        for _ in 0..if board.tables.rows > 40 { 12 } else { 24 } {
            let kind = if dated { dated_kind(random, kinds) } else { any_kind(random, kinds, aim) };
            let question = asked.random(random, kind, &mut original);
            if damageable(kind) && random.chance(250) {
                self.damaged(random, &board, question)?;
            } else {
                self.plain(&mut board, &mut original, question)?;
            }
        }
        Ok(())
    }

    pub fn random(&mut self, cases: u64, seed: u64) -> Result<(), Met> {
        let kinds: Vec<Kind> = WEIGHTS.iter().filter(|w| self.kinds.contains(&w.0)).flat_map(|w| vec![w.0; w.1]).collect();
        let mut random = Random::new(seed);
        let end = self.counts.total() + cases;
        while self.counts.total() < end {
            self.random_board(&mut random, &kinds)?;
        }
        Ok(())
    }

    /// All boards of each family, or, where `one_in` is over 1, a random choice of them, but for a family of few; of each all questions.
    pub fn small(&mut self, one_in: usize, seed: u64) -> Result<(), Met> {
        let mut random = Random::new(seed);
        FAMILIES.iter().try_for_each(|family| self.family(family, one_in, &mut random))
    }

    pub fn family(&mut self, family: &Family, one_in: usize, random: &mut Random) -> Result<(), Met> {
        let questions = self.small_questions(family);
        for number in 0..family.boards {
            if family.boards > FEW && random.below(one_in) != 0 {
                continue;
            }
            let (tables, roster) = (family.board)(number);
            let mut board = Board::new(tables, roster, 0);
            let (tables, roster) = (board.tables.clone(), board.roster.clone());
            let mut original = Original::new(&tables, &roster);
            for question in &questions {
                self.plain(&mut board, &mut original, question.clone())?;
            }
        }
        Ok(())
    }

    /// What each board of a family is asked.
    fn small_questions(&self, family: &Family) -> Vec<Question> {
        (family.questions)().into_iter().filter(|question| self.kinds.contains(&question.kind())).collect()
    }

    /// How many cases the families have in all.
    pub fn small_cases(&self) -> u64 {
        let cases = |question: &Question| 1 + u64::from(self.form_by_struct(question).is_some());
        FAMILIES.iter().map(|family| family.boards * self.small_questions(family).iter().map(cases).sum::<u64>()).sum()
    }
}

/// The smallest case behind one that was met, with both answers.
pub fn report(library: &dyn Library, met: Case) -> (Case, Option<Box<Disagreement>>) {
    let case = smallest(library, met);
    let disagreement = case.disagreement(library);
    (case, disagreement)
}
