//! Short lists, one for each entry, of applications two, and two of long searches, in each of which one expected answer is wrong: a replay must find it. Those of calendars stand behind the others.
use super::lending::{Described, Lending};
use super::line;
use super::sampler::{answer, MOST_OCTETS};
use crate::differ::boards;
use crate::differ::calendars::{duties_in, object, LAST_DAY};
use crate::differ::chains::{Chain, End, Way};
use crate::differ::entries::list_expected;
use crate::differ::lent::{pack, EMPTY};
use crate::differ::question::{cells_before, Kind, Question, Seen, KINDS};
use crate::differ::questions::Asked;
use crate::differ::random::Random;
use crate::{Original, SearchRequest};

/// Makes one part of an answer wrong, another part for each kind; false where the answer has no such part.
fn twist(kind: Kind, seen: &mut Seen) -> bool {
    let answered = seen.code == 0;
    let listed = |output: usize| line::front(&seen.outputs[output]).len();
    let (first, second) = (listed(0), listed(1));
    match kind {
        Kind::Tables => seen.code = 2,
        Kind::Admit => seen.code = 6,
        Kind::Build => seen.index[0][1] = 64,
        Kind::Refresh => seen.index[1][1] = 64,
        Kind::Final | Kind::Reinsert | Kind::Sound => seen.flag ^= 1,
        Kind::Conflicts if second > 1 => seen.outputs[1].swap(0, 1),
        Kind::Search if seen.flag == 1 => seen.numbers[1] += 1,
        Kind::Ceiling => seen.numbers[0] -= 1,
        Kind::Order if first > 1 => seen.outputs[0].swap(0, 1),
        Kind::NewCursor => seen.numbers[3] += 1,
        Kind::Step if seen.flag == 1 => seen.numbers[2] += 1,
        Kind::NewEjectionCursor => seen.numbers[1] += 1,
        // as if the next attempt had been tried too
        Kind::EjectionStep if seen.flag == 1 => seen.numbers[3] += 1,
        // a cell that "none" leaves alone
        Kind::Ejection if seen.flag == 0 => seen.outputs[0][0] = 0,
        _ => return false,
    }
    answered
}

/// Answered no, and the list applied all the same; false where the answer is not no, or a refresh would change nothing.
fn applied_on_no(board: &Described, question: &Question, seen: &mut Seen) -> bool {
    let Question::Apply(list) = question else { return false };
    let refreshed = answer(board, &Question::Refresh(vec![list.clone()])).remove(0);
    let other = (seen.code, seen.flag) == (0, 0) && refreshed.index != seen.index;
    seen.index = refreshed.index;
    other
}

/// Answered yes, and every cell as it was; false where the answer is not yes, or changed nothing.
fn left_on_yes(board: &Described, _: &Question, seen: &mut Seen) -> bool {
    let before = [board.lent.records.clone(), board.lent.members.clone()];
    let other = (seen.code, seen.flag) == (0, 1) && seen.index != before;
    seen.index = before;
    other
}

/// Each duty is written a day late; false where nothing is written, or there is no later day.
fn written_late(_: &Described, question: &Question, seen: &mut Seen) -> bool {
    let Question::DriverCalendar(_, stamp, _) = question else { return false };
    let text = &mut seen.octets.0[..if seen.code == 0 { seen.numbers[0] } else { 0 }];
    let Some(mut duties) = duties_in(text).filter(|duties| duties.iter().all(|duty| duty.1 < LAST_DAY)) else { return false };
    duties.iter_mut().for_each(|duty| duty.1 += 1);
    text.copy_from_slice(&object(&stamp.0, &duties));
    true
}

/// The last duty is read a day late; false where there is none.
fn read_late(_: &Described, _: &Question, seen: &mut Seen) -> bool {
    let last = if seen.code == 0 { seen.numbers[0] } else { 0 };
    seen.outputs[1][..last].last_mut().map(|day| *day += 1).is_some()
}

/// Two right answers of an entry, and then one that is made wrong.
fn list(random: &mut Random, kind: Kind, lending: &mut Lending, wrong: impl Fn(&Described, &Question, &mut Seen) -> bool) -> String {
    let mut text = String::new();
    let mut right = 0;
    loop {
        let rows = random.between(2, 4);
        let (mut tables, roster) = boards::sized(random, rows, 2);
        if later(kind) {
            boards::date(random, &mut tables);
        }
        let board = Described::plain(pack(&tables, &roster, 0));
        let mut original = Original::new(&tables, &roster);
        let question = Asked { tables: &tables, roster: &roster, aim: None }.random(random, kind, &mut original);
        if matches!(&question, Question::Refresh(lists) if lists.len() != 1) {
            continue;
        }
        if matches!(&question, Question::ReadCalendar(text, _) if text.0.len() > MOST_OCTETS) {
            continue;
        }
        let mut seen = answer(&board, &question).remove(0);
        if right == 2 && !wrong(&board, &question, &mut seen) {
            continue;
        }
        lending.lend(&board, &mut text);
        line::write(&question, false, &seen, &mut text);
        right += 1;
        if right == 3 {
            return text + "0\r\n";
        }
    }
}

/// Without the last edit of its move.
fn cut_short(_: &mut Original, _: &SearchRequest, mut seen: Seen) -> Seen {
    seen.numbers[0] -= 1;
    let last = seen.numbers[0];
    for cells in &mut seen.outputs[..2] {
        cells[last] = cells_before(cells.len())[last];
    }
    seen
}

/// With the list that the final test refused.
fn refused_given(original: &mut Original, request: &SearchRequest, seen: Seen) -> Seen {
    let list = original.found_list(request).expect("a list that fails");
    list_expected(seen, Some(&list))
}

/// The search of a chain at two depths less and at one, which are not enough, and then at the right one with a wrong answer.
fn long(chain: Chain, wrong: fn(&mut Original, &SearchRequest, Seen) -> Seen, lending: &mut Lending) -> String {
    let mut text = String::new();
    let (tables, roster) = chain.board();
    let board = Described::plain(pack(&tables, &roster, 0));
    lending.lend(&board, &mut text);
    for less in [2, 1, 0] {
        let depth = chain.depth() - less;
        let request = SearchRequest { row: 0, value: 0, depth, displacement: false, candidate_limit: None, budget: EMPTY };
        let question = Question::Search(request, [tables.rows + 4; 2]);
        let seen = answer(&board, &question).remove(0);
        let seen = if less == 0 { wrong(&mut Original::new(&tables, &roster), &request, seen) } else { seen };
        line::write(&question, false, &seen, &mut text);
    }
    text + "0\r\n"
}

/// Whether the list of a kind stands behind the others.
fn later(kind: Kind) -> bool {
    matches!(kind, Kind::DriverCalendar | Kind::ReadCalendar)
}

pub fn damaged_calendars(seed: u64, lending: &mut Lending) -> String {
    let mut random = Random::new(seed);
    let written = list(&mut random, Kind::DriverCalendar, lending, written_late);
    written + &list(&mut random, Kind::ReadCalendar, lending, read_late)
}

pub fn damaged(seed: u64, lending: &mut Lending) -> String {
    let mut random = Random::new(seed);
    let several = |kind: Kind| matches!(kind, Kind::Walk | Kind::EjectionWalk | Kind::Acts);
    let others = |kind: &Kind| line::says(*kind) && !several(*kind) && *kind != Kind::Apply && !later(*kind);
    let single = KINDS.into_iter().map(|(kind, _)| kind).filter(others);
    let mut text: String = single.map(|kind| list(&mut random, kind, lending, |_, _, seen| twist(kind, seen))).collect();
    text += &list(&mut random, Kind::Apply, lending, applied_on_no);
    text += &list(&mut random, Kind::Apply, lending, left_on_yes);
    text += &long(Chain::plain(8, Way::Key), cut_short, lending);
    text += &long(Chain { end: End::Chain(0), ..Chain::plain(7, Way::Key) }, refused_given, lending);
    text
}
