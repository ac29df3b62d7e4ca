//! The judge itself: it finds what is wrong in a wrong library, and shrinks it.
use oracle::differ::calendars::{day_of, duties_in, duty_in, event, events_in, is_stamp, object, text_of, unfolded, Duty, MOST_OCTETS};
use oracle::differ::entries::reinsertions::{listed, next_move, tries};
use oracle::differ::lent::Lent;
use oracle::differ::library::{Given, Library, Linked, Moves};
use oracle::differ::question::{Kind, Lists, Question, KINDS};
use oracle::differ::random::Random;
use oracle::differ::run::{report, Met, Run};
use oracle::differ::small::FAMILIES;
use oracle::{Cursor, Edit, Original, SearchRequest};
use turepawon::raw::EditRecord;

#[derive(Clone, Copy, PartialEq)]
enum Wrong {
    Nothing,
    AlwaysYes,
    AlwaysNo,
    RefreshesNothing,
    FalseIndexTaken,
    AnswersWhenRefused,
    WritesBehind,
    RowsExchanged,
    OneAskTooFew,
    ListTurnedRound,
    NoMoveCounts,
    LongMoveCutShort,
    FailingListGiven,
    CeilingTooLow,
    CursorTwoSteps,
    OrderNotRotated,
    SizeCut,
    DoneCounts,
    DoneGoesBack,
    BadCursorMended,
    LastAttemptOverflows,
    NoCandidatesForNone,
    NoneWrites,
    LengthsSummed,
    DoneNotSeen,
    JustFitsLeftOut,
    WalkBeginsAgain,
    WalkCountsWhenRefused,
    RowAndValueExchanged,
    RecordsCutAt128,
    LentCursorStays,
    LentCursorMended,
    ThreeRowsAtFirst,
    LastAttemptLeftOut,
    AttemptPastTheLength,
    FailingEjectionGiven,
    StepsAsTheOriginal,
    FailingListApplied,
    NothingApplied,
    RowOutOfRangeRefused,
    RefusalAnswered,
    FailsBeforeAdmitted,
    FirstIndexTested,
    IllegalCalledSound,
    JudgedAsEmpty,
    EmptyCalledIllegal,
    CenturyIsLeap,
    SixteenBeforeSeventeen,
    OthersDaysRefused,
    EmptyCalendarWritten,
    LeapSecondRefused,
    LengthToldWhenRefused,
    FilledWhenRefused,
    EndedByZero,
    TabIsNoFold,
    FoldsTakenTwice,
    RowsNeedNotRise,
    ReadWhenRefused,
}

/// The library with one fault.
struct Twisted(Wrong);

impl Twisted {
    fn flag(&self, code: u8, answer: &mut u8) -> u8 {
        match self.0 {
            Wrong::AlwaysYes if code == 0 => *answer = 1,
            Wrong::AlwaysNo if code == 0 => *answer = 0,
            Wrong::AnswersWhenRefused if code != 0 => *answer = 0,
            _ => {}
        }
        code
    }

    /// Whether every row's holding is legal, as a wrong library judges it, of slices that are admitted.
    fn judged_by_rows(&self, lent: &Lent) -> Option<bool> {
        let of = |judge: &dyn Fn(usize, Option<usize>) -> bool| {
            (Linked.admit(lent) == 0).then(|| lent.held().into_iter().enumerate().all(|(row, held)| judge(row, held)))
        };
        match self.0 {
            Wrong::IllegalCalledSound => of(&|_, _| true),
            Wrong::JudgedAsEmpty => of(&|row, held| held.is_none() || lent.may_be_empty(row)),
            Wrong::EmptyCalledIllegal => of(&|row, held| held.map_or(lent.may_be_empty(row), |value| lent.legal(row, value))),
            _ => None,
        }
    }
}

impl Library for Twisted {
    fn tables_refusal(&self, lent: &Lent) -> u8 {
        Linked.tables_refusal(lent)
    }
    fn admit(&self, lent: &Lent) -> u8 {
        match Linked.admit(lent) {
            6 if self.0 == Wrong::FalseIndexTaken => 0,
            code => code,
        }
    }
    fn build_index(&self, lent: &Lent, records: &mut [usize], members: &mut [usize]) -> u8 {
        Linked.build_index(lent, records, members)
    }
    fn refresh_rows(&self, lent: &Lent, records: &mut [usize], members: &mut [usize], list: &Lists) -> u8 {
        if self.0 == Wrong::RefreshesNothing {
            return Linked.refresh_rows(lent, &mut records.to_vec(), &mut members.to_vec(), list);
        }
        Linked.refresh_rows(lent, records, members, list)
    }
    fn feasible(&self, lent: &Lent, list: &Lists, answer: &mut u8) -> u8 {
        self.flag(Linked.feasible(lent, list, answer), answer)
    }
    fn apply(&self, lent: &Lent, records: &mut [usize], members: &mut [usize], list: &Lists, answer: &mut u8) -> u8 {
        let (before, out_of_range) = (*answer, list.rows.iter().any(|&row| row >= lent.rows));
        let code = match self.0 {
            Wrong::NothingApplied => Linked.apply(lent, &mut records.to_vec(), &mut members.to_vec(), list, answer),
            Wrong::FirstIndexTested => tested_as_lent(lent, records, members, list, answer),
            _ => Linked.apply(lent, records, members, list, answer),
        };
        match (self.0, code) {
            (Wrong::FailingListApplied, 0) if *answer == 0 => {
                // a list that the refresh refuses leaves the cells
                let _ = Linked.refresh_rows(lent, records, members, list);
                0
            }
            (Wrong::RowOutOfRangeRefused, 0) if out_of_range => {
                *answer = before;
                4
            }
            (Wrong::FailsBeforeAdmitted, 6) if out_of_range => {
                *answer = 0;
                0
            }
            (Wrong::RefusalAnswered, 1..) => {
                *answer = 0;
                code
            }
            _ => code,
        }
    }
    fn reinsert(&self, lent: &Lent, list: &Lists, row: usize, value: usize, answer: &mut u8) -> u8 {
        Linked.reinsert(lent, list, row, value, answer)
    }
    fn sound(&self, lent: &Lent, answer: &mut u8) -> u8 {
        let Some(judged) = self.judged_by_rows(lent) else {
            return Linked.sound(lent, answer);
        };
        // with every value legal, what is left is keys and edges
        let mut clear = lent.clone();
        let start = 69 * lent.rows;
        clear.marks[start..start + lent.rows * lent.values].fill(1);
        let code = Linked.sound(&clear, answer);
        *answer &= u8::from(judged);
        code
    }
    fn conflicts(&self, lent: &Lent, out_keys: &mut [usize], out_rows: &mut [usize], count: &mut usize) -> u8 {
        let code = Linked.conflicts(lent, out_keys, out_rows, count);
        match self.0 {
            Wrong::RowsExchanged if code == 0 && *count > 1 => out_rows.swap(0, 1),
            Wrong::WritesBehind if code == 0 && *count < out_rows.len() => out_rows[*count] = 0,
            _ => {}
        }
        code
    }
    fn search(&self, lent: &Lent, request: &SearchRequest, given: Given, asks: &mut usize, found: &mut u8) -> u8 {
        let Given { rows, values, count } = given;
        let code = Linked.search(lent, request, Given { rows: &mut *rows, values: &mut *values, count: &mut *count }, asks, found);
        match self.0 {
            Wrong::OneAskTooFew if code == 0 && *asks > 3 => *asks -= 1,
            Wrong::ListTurnedRound if code == 0 && *found == 1 => {
                rows[..*count].reverse();
                values[..*count].reverse();
            }
            Wrong::NoMoveCounts if code == 0 && *found == 0 => *count = 0,
            Wrong::LongMoveCutShort if code == 0 && *found == 1 && *count > 5 => *count -= 1,
            Wrong::FailingListGiven if code == 0 && *found == 0 => {
                let (tables, roster) = (lent.unpack(), lent.held());
                let list = Original::new(&tables, &roster).found_list(request).unwrap_or_default();
                for (i, (row, value)) in list.into_iter().take(rows.len().min(values.len())).enumerate() {
                    (rows[i], values[i], *count, *found) = (row, value.unwrap_or(usize::MAX), i + 1, 1);
                }
            }
            _ => {}
        }
        code
    }
    fn ceiling(&self, candidates: usize, depth: usize, ceiling: &mut usize) -> u8 {
        let code = Linked.ceiling(candidates, depth, ceiling);
        if self.0 == Wrong::CeilingTooLow && code == 0 {
            *ceiling -= usize::from(depth == 8);
        }
        code
    }
    fn order(&self, lent: &Lent, offset: usize, out_rows: &mut [usize], count: &mut usize) -> u8 {
        Linked.order(lent, if self.0 == Wrong::OrderNotRotated { 0 } else { offset }, out_rows, count)
    }
    fn new_cursor(&self, count: usize, size: usize, cursor: &mut [usize; 4]) -> u8 {
        Linked.new_cursor(count, if self.0 == Wrong::SizeCut { size.min(127) } else { size }, cursor)
    }
    fn step(&self, lent: &Lent, order: &[usize], cursor: &mut Cursor, given: Given, moved: &mut u8) -> u8 {
        let mut once = |cursor: &mut Cursor, moved: &mut u8| {
            Linked.step(lent, order, cursor, Given { rows: given.rows, values: given.values, count: given.count }, moved)
        };
        let before = *cursor;
        let mut code = once(cursor, moved);
        match self.0 {
            Wrong::CursorTwoSteps => code = once(cursor, moved),
            Wrong::DoneCounts if code == 0 && *moved == 0 => *given.count = 0,
            Wrong::DoneGoesBack if code == 0 && *moved == 0 => *cursor = before,
            Wrong::BadCursorMended if code == 10 => *cursor = Cursor { start: 0, len: 3, variant: 0, longest: 2 },
            _ => {}
        }
        code
    }
    fn feasible_records(&self, edits: &[EditRecord], lent: &Lent, answer: &mut u8) -> u8 {
        let edits: Vec<EditRecord> = match self.0 {
            Wrong::RowAndValueExchanged => edits.iter().map(|edit| EditRecord { row: edit.value, value: edit.row }).collect(),
            Wrong::RecordsCutAt128 => edits.iter().take(128).copied().collect(),
            _ => edits.to_vec(),
        };
        Linked.feasible_records(&edits, lent, answer)
    }
    fn step_at(&self, cursor: &mut turepawon::Cursor, lent: &Lent, order: &[usize], given: Given, moved: &mut u8) -> u8 {
        let before = *cursor;
        let code = Linked.step_at(cursor, lent, order, given, moved);
        match self.0 {
            Wrong::LentCursorStays if code == 0 => *cursor = before,
            Wrong::LentCursorMended if code == 10 => *cursor = turepawon::Cursor { start: 0, length: 3, variant: 0, longest: 2 },
            _ => {}
        }
        code
    }
    fn onward(&self, lent: &Lent, order: &[usize], cursor: &mut Cursor, given: Moves, done: &mut u8) -> u8 {
        let Moves { rows, values, lengths, moves, edits } = given;
        let before = *cursor;
        // a cell less, where that is not refused
        let room = rows.len() - usize::from(self.0 == Wrong::JustFitsLeftOut && rows.len() > lent.rows);
        let lent_outputs = Moves { rows: &mut rows[..room], values, lengths: &mut *lengths, moves: &mut *moves, edits };
        let code = Linked.onward(lent, order, cursor, lent_outputs, done);
        match self.0 {
            Wrong::LengthsSummed if code == 0 => (1..*moves).for_each(|i| lengths[i] += lengths[i - 1]),
            Wrong::DoneNotSeen if code == 0 && *moves != 0 => *done = 0,
            Wrong::WalkBeginsAgain if code == 0 && *done == 0 => *cursor = before,
            Wrong::WalkCountsWhenRefused if code == 7 => *moves = 0,
            _ => {}
        }
        code
    }
    fn ejection(&self, lent: &Lent, window: &[usize], attempt: usize, limit: Option<usize>, given: Given, listed: &mut u8) -> u8 {
        let (attempt, limit) = match self.0 {
            // as if one were added before the remainder is taken, and taken away again
            Wrong::LastAttemptOverflows => (if attempt == usize::MAX { 0 } else { attempt }, limit),
            Wrong::NoCandidatesForNone => (attempt, limit.filter(|&most| most != 0)),
            _ => (attempt, limit),
        };
        let given = Given { rows: given.rows, values: given.values, count: given.count };
        if self.0 != Wrong::NoneWrites {
            return Linked.ejection(lent, window, attempt, limit, given, listed);
        }
        let Given { rows, values, count } = given;
        let code = Linked.ejection(lent, window, attempt, limit, Given { rows: &mut *rows, values: &mut *values, count }, listed);
        if code == 0 && *listed == 0 && !rows.is_empty() {
            rows[0] = window[0];
        }
        code
    }
    fn new_ejection_cursor(&self, count: usize, size: usize, cursor: &mut [usize; 4]) -> u8 {
        let code = Linked.new_ejection_cursor(count, size, cursor);
        if self.0 == Wrong::ThreeRowsAtFirst && code == 0 {
            cursor[1] = 3;
        }
        code
    }
    fn ejection_step(&self, lent: &Lent, order: &[usize], cursor: &mut Cursor, limit: Option<usize>, given: Given, moved: &mut u8) -> u8 {
        let step: EjectionStep = match self.0 {
            Wrong::LastAttemptLeftOut => without_last_attempts,
            Wrong::FailingEjectionGiven => without_final_test,
            Wrong::StepsAsTheOriginal => |original, order, from, limit| original.own_ejection_step(order, from, limit, 2),
            Wrong::AttemptPastTheLength if cursor.variant == cursor.len.wrapping_add(1) => {
                let mut fitting = Cursor { variant: cursor.len, ..*cursor };
                let code = Linked.ejection_step(lent, order, &mut fitting, limit, given, moved);
                *cursor = if code == 0 { fitting } else { *cursor };
                return code;
            }
            _ => return Linked.ejection_step(lent, order, cursor, limit, given, moved),
        };
        stepped_by(step, lent, order, cursor, limit, given, moved)
    }
    fn driver_calendar(&self, lent: &Lent, driver: usize, stamp: &[u8], out: &mut [u8], written: &mut usize) -> u8 {
        let leap_second = is_stamp(stamp) && &stamp[13..15] == b"60";
        let with_room = |driver| Linked.driver_calendar(lent, driver, b"19700101T000000Z", &mut [0; MOST_OCTETS], &mut 0);
        if self.0 == Wrong::LeapSecondRefused && leap_second {
            return if with_room(driver) < 7 { with_room(driver) } else { 17 };
        }
        let code = Linked.driver_calendar(lent, driver, stamp, out, written);
        match (self.0, code) {
            (Wrong::CenturyIsLeap, 0) => a_day_behind_2100(&mut out[..*written], stamp),
            (Wrong::SixteenBeforeSeventeen, 17) if with_room(driver) == 16 => return 16,
            (Wrong::OthersDaysRefused, 16) if (0..lent.values).any(|other| with_room(other) == 11) => return 11,
            (Wrong::EmptyCalendarWritten, 16) if out.len() >= 78 => {
                out[..78].copy_from_slice(&object(stamp, &[]));
                *written = 78;
                return 0;
            }
            (Wrong::LengthToldWhenRefused, 7) => *written = out.len() + 1,
            (Wrong::FilledWhenRefused, 7) => out.iter_mut().zip(b"BEGIN:VCALENDAR").for_each(|(cell, &octet)| *cell = octet),
            (Wrong::EndedByZero, 0) if *written < out.len() => out[*written] = 0,
            _ => {}
        }
        code
    }
    fn read_calendar(&self, bytes: &[u8], given: Given) -> u8 {
        let Given { rows, values, count } = given;
        let mut linked = |bytes: &[u8]| Linked.read_calendar(bytes, Given { rows: &mut *rows, values: &mut *values, count: &mut *count });
        let duties = match self.0 {
            Wrong::TabIsNoFold if bytes.windows(3).any(|octets| octets == b"\r\n\t") => return 13,
            Wrong::FoldsTakenTwice => match std::str::from_utf8(bytes) {
                Ok(text) => return linked(unfolded(text).as_bytes()),
                Err(_) => return 13,
            },
            Wrong::RowsNeedNotRise => in_any_order(bytes),
            Wrong::ReadWhenRefused => duties_in(bytes),
            _ => None,
        };
        let (code, room) = (linked(bytes), rows.len().min(values.len()));
        let Some(duties) = duties.filter(|duties| code == 13 && duties.len() <= room || code == 7) else { return code };
        for (i, (row, day)) in duties.into_iter().take(room).enumerate() {
            (rows[i], values[i], *count) = (row, day, i + 1);
        }
        code % 13
    }
}

/// As if 2100 had a 29 February: what comes behind is a day early.
fn a_day_behind_2100(text: &mut [u8], stamp: &[u8]) {
    let march = day_of((2100, 3, 1)).expect("a date");
    let mut events = Vec::new();
    for (row, day) in duties_in(text).expect("what was written") {
        let mut late = event(stamp, (row, day - usize::from(day >= march)));
        if day == march {
            late.date = "21000229".into();
        }
        events.push(late);
    }
    text.copy_from_slice(&text_of(&events));
}

/// The duties of an object but for the order of its rows.
fn in_any_order(bytes: &[u8]) -> Option<Vec<Duty>> {
    let text = unfolded(std::str::from_utf8(bytes).ok()?);
    let events = events_in(&text)?;
    let stamp = events.first()?.stamp.clone();
    let duties: Vec<Duty> = events.iter().map(duty_in).collect::<Option<_>>()?;
    let taken = is_stamp(&stamp) && duties.iter().all(|duty| duty.0 < 128);
    (taken && object(&stamp, &duties) == text.as_bytes()).then_some(duties)
}

/// An application that tests the index which was lent at first, and not the one that stands in the slices.
fn tested_as_lent(lent: &Lent, records: &mut [usize], members: &mut [usize], list: &Lists, answer: &mut u8) -> u8 {
    match Linked.feasible(lent, list, answer) {
        0 if *answer == 1 => Linked.refresh_rows(lent, records, members, list),
        code => code,
    }
}

/// A step over ejection windows where it is not refused: a list, and the cursor behind it.
type EjectionStep = fn(&mut Original, &[usize], Cursor, Option<usize>) -> (Option<Vec<Edit>>, Cursor);

/// Goes on over what a window's last attempt gives.
fn without_last_attempts(original: &mut Original, order: &[usize], from: Cursor, limit: Option<usize>) -> (Option<Vec<Edit>>, Cursor) {
    let (list, next) = next_move(original, order, from, limit);
    match list {
        Some(_) if next.variant == next.len => without_last_attempts(original, order, next, limit),
        list => (list, next),
    }
}

/// Gives the first list that has an edit, passing or not.
fn without_final_test(original: &mut Original, order: &[usize], from: Cursor, limit: Option<usize>) -> (Option<Vec<Edit>>, Cursor) {
    let with_edits = |at: Cursor| listed(original, order, at, limit).filter(|list| !list.is_empty()).map(|list| (list, at));
    match tries(order.len(), from).find_map(with_edits) {
        Some((list, at)) => (Some(list), Cursor { variant: at.variant + 1, ..at }),
        None => next_move(original, order, from, limit),
    }
}

/// The step by another rule. Whether it is refused the library says, over copies.
fn stepped_by(
    step: EjectionStep,
    lent: &Lent,
    order: &[usize],
    cursor: &mut Cursor,
    limit: Option<usize>,
    given: Given,
    moved: &mut u8,
) -> u8 {
    let (mut rows, mut values) = (given.rows.to_vec(), given.values.to_vec());
    let copies = Given { rows: &mut rows, values: &mut values, count: &mut 0 };
    let code = Linked.ejection_step(lent, order, &mut cursor.clone(), limit, copies, &mut 0);
    if code != 0 {
        return code;
    }
    let (tables, roster) = (lent.unpack(), lent.held());
    let (list, next) = step(&mut Original::new(&tables, &roster), order, *cursor, limit);
    (*cursor, *moved) = (next, u8::from(list.is_some()));
    let room = given.rows.len().min(given.values.len());
    for (i, (row, value)) in list.into_iter().flatten().take(room).enumerate() {
        (given.rows[i], given.values[i], *given.count) = (row, value.unwrap_or(usize::MAX), i + 1);
    }
    0
}

/// The fault was met and shrinks to a board of at most so many rows.
fn shrinks(library: &Twisted, met: Met, kinds: &[Kind], rows: usize) {
    let (case, disagreement) = report(library, *met);
    assert!(disagreement.is_some() && kinds.contains(&case.question.kind()) && case.tables.rows <= rows, "{case:?}");
}

/// The fault is met within 200,000 cases.
fn caught(wrong: Wrong, kinds: &[Kind], rows: usize) {
    let library = Twisted(wrong);
    let met = Run::new(&library).random(200_000, 11).expect_err("a wrong library must be found out");
    shrinks(&library, met, kinds, rows);
}

/// The fault is met on a board of this small family.
fn caught_by_family(wrong: Wrong, name: &str, one_in: usize, kinds: &[Kind], rows: usize) {
    let library = Twisted(wrong);
    let family = FAMILIES.iter().find(|family| family.name == name).expect("a family");
    let met = Run::new(&library).family(family, one_in, &mut Random::new(11)).expect_err("a wrong library must be found out");
    shrinks(&library, met, kinds, rows);
}

#[test]
fn nothing_wrong() {
    let library = Twisted(Wrong::Nothing);
    let mut run = Run::new(&library);
    if let Err(met) = run.random(100_000, 5) {
        panic!("{:#?}", report(&library, *met));
    }
    if let Err(met) = run.small(2000, 5) {
        panic!("{:#?}", report(&library, *met));
    }
    for (kind, name) in KINDS {
        assert!(run.counts.of(kind) > 100, "{name} is hardly asked");
    }
}

#[test]
fn wrong_verdicts() {
    caught(Wrong::AlwaysYes, &[Kind::Final], 2);
    caught(Wrong::AlwaysNo, &[Kind::Final], 0);
    caught(Wrong::AnswersWhenRefused, &[Kind::Final], 1);
}

#[test]
fn wrong_soundness() {
    caught(Wrong::IllegalCalledSound, &[Kind::Sound], 1);
    caught(Wrong::JudgedAsEmpty, &[Kind::Sound], 1);
    caught(Wrong::EmptyCalledIllegal, &[Kind::Sound], 1);
}

#[test]
fn wrong_index() {
    caught(Wrong::RefreshesNothing, &[Kind::Refresh], 1);
    caught(Wrong::FalseIndexTaken, &[Kind::Admit], 2);
}

#[test]
fn wrong_application() {
    // it may fail by a key that another row holds
    caught(Wrong::FailingListApplied, &[Kind::Apply], 2);
    caught(Wrong::NothingApplied, &[Kind::Apply], 1);
    caught(Wrong::RowOutOfRangeRefused, &[Kind::Apply], 0);
    caught(Wrong::RefusalAnswered, &[Kind::Apply], 1);
    caught(Wrong::FailsBeforeAdmitted, &[Kind::Apply], 1);
}

/// What is wrong only of an index that an act left, a single question cannot show.
#[test]
fn wrong_in_turn() {
    caught(Wrong::FirstIndexTested, &[Kind::Acts], 2);
    let library = Twisted(Wrong::FirstIndexTested);
    assert!(Run::of(&library, &[Kind::Apply]).random(50_000, 11).is_ok());
}

/// Every short list finds them too, on boards of two rows and one value.
#[test]
fn wrong_application_on_small_boards() {
    for wrong in [Wrong::FailingListApplied, Wrong::NothingApplied, Wrong::RowOutOfRangeRefused] {
        caught_by_family(wrong, "two rows, one value", 10, &[Kind::Apply], 1);
    }
    caught_by_family(Wrong::FirstIndexTested, "two rows, one value", 10, &[Kind::Acts], 2);
}

#[test]
fn wrong_outputs() {
    caught(Wrong::WritesBehind, &[Kind::Conflicts], 1);
    caught(Wrong::RowsExchanged, &[Kind::Conflicts], 2);
}

#[test]
fn wrong_search() {
    caught(Wrong::OneAskTooFew, &[Kind::Search], 2);
    caught(Wrong::ListTurnedRound, &[Kind::Search], 3);
    caught(Wrong::NoMoveCounts, &[Kind::Search], 1);
    caught(Wrong::CeilingTooLow, &[Kind::Ceiling], 0);
}

#[test]
fn wrong_long_search() {
    caught(Wrong::LongMoveCutShort, &[Kind::Search], 6);
    caught(Wrong::FailingListGiven, &[Kind::Search], 3);
    caught_by_family(Wrong::LongMoveCutShort, "chains", 100, &[Kind::Search], 6);
    caught_by_family(Wrong::FailingListGiven, "chains", 100, &[Kind::Search], 6);
}

#[test]
fn wrong_structs() {
    caught(Wrong::RowAndValueExchanged, &[Kind::Records], 2);
    caught(Wrong::LentCursorStays, &[Kind::StepAt], 1);
    caught(Wrong::LentCursorMended, &[Kind::StepAt], 0);
    caught_by_family(Wrong::RecordsCutAt128, "many rows", 1, &[Kind::Records], 128);
}

#[test]
fn wrong_order() {
    let ordered = [Kind::Order, Kind::Walk, Kind::EjectionWalk, Kind::OwnEjections];
    caught(Wrong::OrderNotRotated, &ordered, 3);
}

#[test]
fn wrong_cursor() {
    let steps = [Kind::Step, Kind::Walk];
    caught(Wrong::SizeCut, &[Kind::NewCursor], 0);
    caught(Wrong::CursorTwoSteps, &steps, 4);
    caught(Wrong::DoneCounts, &steps, 0);
    caught(Wrong::DoneGoesBack, &steps, 2);
    caught(Wrong::BadCursorMended, &steps, 0);
}

#[test]
fn wrong_ejection() {
    caught(Wrong::LastAttemptOverflows, &[Kind::Ejection], 3);
    caught(Wrong::NoCandidatesForNone, &[Kind::Ejection], 1);
    caught(Wrong::NoneWrites, &[Kind::Ejection], 1);
}

#[test]
fn wrong_walk() {
    caught(Wrong::LengthsSummed, &[Kind::Onward], 3);
    caught(Wrong::DoneNotSeen, &[Kind::Onward], 3);
    caught(Wrong::JustFitsLeftOut, &[Kind::Onward], 5);
    caught(Wrong::WalkBeginsAgain, &[Kind::Onward], 4);
    caught(Wrong::WalkCountsWhenRefused, &[Kind::Onward], 1);
}

#[test]
fn wrong_ejection_walk() {
    let steps = [Kind::EjectionStep, Kind::EjectionWalk, Kind::OwnEjections];
    caught(Wrong::ThreeRowsAtFirst, &[Kind::NewEjectionCursor, Kind::EjectionWalk, Kind::OwnEjections], 2);
    caught(Wrong::LastAttemptLeftOut, &steps, 3);
    caught(Wrong::AttemptPastTheLength, &steps, 0);
    caught(Wrong::FailingEjectionGiven, &steps, 3);
}

#[test]
fn wrong_calendar() {
    let written = [Kind::DriverCalendar];
    caught(Wrong::CenturyIsLeap, &written, 1);
    caught(Wrong::SixteenBeforeSeventeen, &written, 0);
    caught(Wrong::OthersDaysRefused, &written, 1);
    caught(Wrong::EmptyCalendarWritten, &written, 0);
    caught(Wrong::LeapSecondRefused, &written, 1);
    caught(Wrong::LengthToldWhenRefused, &written, 1);
    caught(Wrong::FilledWhenRefused, &written, 1);
    caught(Wrong::EndedByZero, &written, 1);
    caught_by_family(Wrong::CenturyIsLeap, "days", 1, &written, 1);
    caught_by_family(Wrong::LeapSecondRefused, "stamps", 1, &written, 1);
}

/// The fault is met by reading calendars alone, and shrinks to a text of at most so many octets.
fn caught_reading(wrong: Wrong, octets: usize) {
    let library = Twisted(wrong);
    let met = Run::of(&library, &[Kind::ReadCalendar]).random(50_000, 11).expect_err("a wrong library must be found out");
    let (case, disagreement) = report(&library, *met);
    let Question::ReadCalendar(text, _) = &case.question else { panic!("{case:?}") };
    assert!(disagreement.is_some() && case.tables.rows == 0 && text.0.len() <= octets, "{case:?}");
}

/// An object of one event has at most 209 octets, of two 340.
#[test]
fn wrong_reading() {
    caught_reading(Wrong::TabIsNoFold, 209 + 3);
    caught_reading(Wrong::FoldsTakenTwice, 209 + 6);
    caught_reading(Wrong::RowsNeedNotRise, 340);
    caught_reading(Wrong::ReadWhenRefused, 340);
    caught(Wrong::TabIsNoFold, &[Kind::ReadCalendar], 0);
    caught_by_family(Wrong::TabIsNoFold, "objects", 1, &[Kind::ReadCalendar], 0);
}

/// The walk beside the original's own finds by itself what is missing there.
#[test]
fn wrong_beside_the_original() {
    let library = Twisted(Wrong::LastAttemptLeftOut);
    let met = Run::of(&library, &[Kind::OwnEjections]).random(50_000, 11).expect_err("a wrong library must be found out");
    shrinks(&library, met, &[Kind::OwnEjections], 3);
}

/// What is asked for is the rule's order. The original's own is found out, though not beside itself: there only at more depth than it was put in with.
#[test]
fn the_original_steps_otherwise() {
    caught(Wrong::StepsAsTheOriginal, &[Kind::EjectionStep, Kind::EjectionWalk], 2);
    let library = Twisted(Wrong::StepsAsTheOriginal);
    let met = Run::of(&library, &[Kind::OwnEjections]).random(50_000, 11).expect_err("a depth over 2 must be met");
    let (case, _) = report(&library, *met);
    assert!(matches!(case.question, Question::OwnEjections(_, _, _, depth) if depth > 2), "{case:?}");
}
