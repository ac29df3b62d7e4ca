//! One question, put to both sides.
use super::calendars::MOST_OCTETS;
use super::entries::{calendars, conflicts, cycles, ejection, index, onward, paths, reinsertions, verdicts};
use super::lent::Lent;
use super::library::Library;
use super::question::{Act, Lists, Question, Seen};
use super::refusals;
use super::windows::{EJECTIONS, REMATCHES};
use crate::Original;

#[derive(Clone, Debug)]
pub struct Disagreement {
    pub expected: Vec<Seen>,
    pub answered: Vec<Seen>,
}

/// What a refused question leaves: everything as it was.
fn refused(lent: &Lent, question: &Question, code: u8) -> Vec<Seen> {
    let seen = match question {
        Question::Build => Seen::before(0, [0, 0], Some(lent)),
        // unequal lengths are 1, which stands before every other number
        Question::Refresh(_) | Question::Apply(_) | Question::Acts(_) => {
            let code_of = |list: &Lists| if list.rows.len() == list.values.len() { code } else { 1 };
            let before = |(_, list): (Act, &Lists)| Seen::before(0, [0, 0], Some(lent)).refused(code_of(list));
            return question.acts().into_iter().map(before).collect();
        }
        Question::Conflicts(rooms) | Question::Ejection(_, _, _, rooms) => Seen::before(1, *rooms, None),
        Question::Search(_, rooms) => Seen::before(2, *rooms, None),
        Question::Ceiling(..) => Seen::before(1, [0, 0], None),
        Question::Order(_, room) => Seen::before(1, [*room, 0], None),
        Question::Walk(..) | Question::EjectionWalk(..) | Question::OwnEjections(..) => Seen::before(1, [lent.rows, 0], None),
        Question::NewCursor(..) | Question::NewEjectionCursor(..) => Seen::before(4, [0, 0], None),
        Question::Step(_, at, rooms) | Question::StepAt(_, at, rooms) | Question::EjectionStep(_, at, _, rooms) => {
            cycles::step_refused(*at, *rooms)
        }
        Question::Onward(_, at, rooms) => onward::refused(*at, *rooms),
        Question::DriverCalendar(_, _, room) => calendars::before(*room),
        Question::CalendarBack(..) => calendars::before(MOST_OCTETS),
        Question::ReadCalendar(_, rooms) => Seen::before(1, *rooms, None),
        _ => Seen::before(0, [0, 0], None),
    };
    vec![seen.refused(code)]
}

/// What the original answers to a question that is not refused. It is left as it was.
fn original_says(lent: &Lent, original: &mut Original, question: &Question) -> Vec<Seen> {
    let seen = match question {
        Question::Tables | Question::Admit => Seen::before(0, [0, 0], None),
        Question::Build => index::build_expected(lent, original),
        Question::Refresh(_) | Question::Apply(_) | Question::Acts(_) => return index::acts_expected(lent, original, &question.acts()),
        Question::Final(list) | Question::Records(list) => verdicts::final_expected(original, list),
        Question::Reinsert(list, row, value) => verdicts::reinsert_expected(original, list, *row, *value),
        Question::Sound => verdicts::sound_expected(lent, original),
        Question::Conflicts(rooms) => conflicts::expected(original, *rooms),
        Question::Search(request, rooms) => paths::search_expected(original, request, *rooms),
        Question::Ceiling(candidates, depth) => paths::ceiling_expected(*candidates, *depth),
        Question::Order(offset, room) => cycles::order_expected(original, *offset, *room),
        Question::NewCursor(count, size) => cycles::new_cursor_expected(REMATCHES, *count, *size),
        Question::Step(order, at, rooms) | Question::StepAt(order, at, rooms) => cycles::step_expected(original, order, *at, *rooms),
        Question::Walk(offset, size) => return cycles::walk_expected(lent, original, *offset, *size),
        Question::Ejection(window, attempt, limit, rooms) => ejection::expected(original, window, *attempt, *limit, *rooms),
        Question::Onward(order, at, rooms) => return onward::expected(original, order, *at, *rooms),
        Question::NewEjectionCursor(count, size) => cycles::new_cursor_expected(EJECTIONS, *count, *size),
        Question::EjectionStep(order, at, limit, rooms) => reinsertions::step_expected(original, order, *at, *limit, *rooms),
        Question::EjectionWalk(offset, size, limit) => return reinsertions::walk_expected(lent, original, *offset, *size, *limit),
        Question::OwnEjections(offset, size, limit, depth) => {
            return reinsertions::own_expected(lent, original, *offset, *size, *limit, *depth)
        }
        Question::DriverCalendar(driver, stamp, room) => calendars::write_expected(original, *driver, &stamp.0, *room),
        Question::ReadCalendar(text, rooms) => calendars::read_expected(&text.0, *rooms),
        Question::CalendarBack(driver, stamp) => return calendars::back_expected(lent, original, *driver, &stamp.0),
    };
    vec![seen]
}

fn library_says(library: &dyn Library, lent: &Lent, question: &Question) -> Vec<Seen> {
    let code_alone = |code| Seen::before(0, [0, 0], None).refused(code);
    let seen = match question {
        Question::Tables => code_alone(library.tables_refusal(lent)),
        Question::Admit => code_alone(library.admit(lent)),
        Question::Build => index::build_asked(library, lent),
        Question::Refresh(_) | Question::Apply(_) | Question::Acts(_) => return index::acts_asked(library, lent, &question.acts()),
        Question::Final(list) => verdicts::final_asked(library, lent, list),
        Question::Reinsert(list, row, value) => verdicts::reinsert_asked(library, lent, list, *row, *value),
        Question::Sound => verdicts::sound_asked(library, lent),
        Question::Conflicts(rooms) => conflicts::asked(library, lent, *rooms),
        Question::Search(request, rooms) => paths::search_asked(library, lent, request, *rooms),
        Question::Ceiling(candidates, depth) => paths::ceiling_asked(library, *candidates, *depth),
        Question::Order(offset, room) => cycles::order_asked(library, lent, *offset, *room),
        Question::NewCursor(count, size) => cycles::new_cursor_asked(|cursor| library.new_cursor(*count, *size, cursor)),
        Question::Step(order, at, rooms) => cycles::step_asked(library, lent, order, *at, *rooms),
        Question::Walk(offset, size) => return cycles::walk_asked(library, lent, *offset, *size),
        Question::Ejection(window, attempt, limit, rooms) => ejection::asked(library, lent, window, *attempt, *limit, *rooms),
        Question::Onward(order, at, rooms) => return onward::asked(library, lent, order, *at, *rooms),
        Question::Records(list) => verdicts::records_asked(library, lent, list),
        Question::StepAt(order, at, rooms) => cycles::step_at_asked(library, lent, order, *at, *rooms),
        Question::NewEjectionCursor(count, size) => cycles::new_cursor_asked(|cursor| library.new_ejection_cursor(*count, *size, cursor)),
        Question::EjectionStep(order, at, limit, rooms) => reinsertions::step_asked(library, lent, order, *at, *limit, *rooms),
        Question::EjectionWalk(offset, size, limit) => return reinsertions::walk_asked(library, lent, *offset, *size, *limit),
        Question::OwnEjections(offset, size, limit, depth) => {
            return reinsertions::own_asked(library, lent, *offset, *size, *limit, *depth)
        }
        Question::DriverCalendar(driver, stamp, room) => calendars::write_asked(library, lent, *driver, &stamp.0, *room),
        Question::ReadCalendar(text, rooms) => calendars::read_asked(library, &text.0, *rooms),
        Question::CalendarBack(driver, stamp) => return calendars::back_asked(library, lent, *driver, &stamp.0),
    };
    vec![seen]
}

/// The roster that a question speaks of.
fn roster(lent: &Lent, question: &Question) -> Vec<Option<usize>> {
    match question {
        Question::Build => lent.roster.iter().map(|&v| super::lent::value_of(v)).collect(),
        _ => lent.held(),
    }
}

/// Both sides on slices of which nothing is known: the refusal by the model, else the original on what the slices say.
pub fn expected(lent: &Lent, question: &Question) -> Vec<Seen> {
    let code = refusals::of(lent, question);
    if code != 0 {
        return refused(lent, question, code);
    }
    match question {
        // these take neither tables nor a roster, or have no answer but the code
        Question::Tables | Question::Admit => vec![Seen::before(0, [0, 0], None)],
        Question::Ceiling(candidates, depth) => vec![paths::ceiling_expected(*candidates, *depth)],
        Question::NewCursor(count, size) => vec![cycles::new_cursor_expected(REMATCHES, *count, *size)],
        Question::NewEjectionCursor(count, size) => vec![cycles::new_cursor_expected(EJECTIONS, *count, *size)],
        Question::ReadCalendar(text, rooms) => vec![calendars::read_expected(&text.0, *rooms)],
        _ => {
            let (tables, roster) = (lent.unpack(), roster(lent, question));
            original_says(lent, &mut Original::new(&tables, &roster), question)
        }
    }
}

/// The same where the slices are whole and the original stands ready over them.
pub fn expected_of(lent: &Lent, original: &mut Original, question: &Question) -> Vec<Seen> {
    match refusals::of(lent, question) {
        0 => original_says(lent, original, question),
        code => refused(lent, question, code),
    }
}

/// Puts the question to the library, which must leave what it only reads as it was.
pub fn compare(
    library: &dyn Library,
    lent: &mut Lent,
    whole: &Lent,
    expected: Vec<Seen>,
    question: &Question,
) -> Result<Vec<Seen>, Box<Disagreement>> {
    let mut answered = library_says(library, lent, question);
    if lent != whole {
        answered[0].spilled = true;
        lent.clone_from(whole);
    }
    if answered == expected {
        Ok(expected)
    } else {
        Err(Box::new(Disagreement { expected, answered }))
    }
}
