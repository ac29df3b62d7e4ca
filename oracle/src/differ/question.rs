//! A question to an entry, and all that can be seen of its answer.
use super::lent::{value_of, Lent};
use crate::tables::Edit;
use crate::{Cursor, SearchRequest};
use std::fmt;

/// An edit list as two slices, which may differ in length.
#[derive(Clone, Debug, PartialEq, Eq, Default)]
pub struct Lists {
    pub rows: Vec<usize>,
    pub values: Vec<usize>,
}

impl Lists {
    pub fn edits(&self) -> Vec<Edit> {
        self.rows.iter().zip(&self.values).map(|(&row, &value)| (row, value_of(value))).collect()
    }
    pub fn push(&mut self, row: usize, value: usize) {
        self.rows.push(row);
        self.values.push(value);
    }
}

/// What a list does to an index that is kept from call to call: a refresh changes it where it is not refused, an application where the list also passes the final test.
#[derive(Clone, Copy, Debug, PartialEq, Eq)]
pub enum Act {
    Refresh,
    Apply,
}

/// Bytes, which are told as text where a case is printed.
#[derive(Clone, PartialEq, Eq, Default)]
pub struct Octets(pub Vec<u8>);

impl fmt::Debug for Octets {
    fn fmt(&self, to: &mut fmt::Formatter) -> fmt::Result {
        write!(to, "\"{}\"", self.0.escape_ascii())
    }
}

/// The cells of each output.
pub type Rooms = [usize; 2];

/// The same of a walk in one call: its edits in two, their number for each move in the third.
pub type WalkRooms = [usize; 3];

#[derive(Clone, Debug, PartialEq, Eq)]
pub enum Question {
    Tables,
    Admit,
    Build,
    /// Lists that are handed over one after the other.
    Refresh(Vec<Lists>),
    Final(Lists),
    Reinsert(Lists, usize, usize),
    Sound,
    Conflicts(Rooms),
    Search(SearchRequest, Rooms),
    Ceiling(usize, usize),
    Order(usize, usize),
    NewCursor(usize, usize),
    Step(Vec<usize>, Cursor, Rooms),
    /// From the first cursor to Done, over the order that the library gives: offset, size.
    Walk(usize, usize),
    Ejection(Vec<usize>, usize, Option<usize>, Rooms),
    /// From a cursor to Done in as many calls as the rooms need.
    Onward(Vec<usize>, Cursor, WalkRooms),
    /// The final test of a list that is lent as records: both slices have one length.
    Records(Lists),
    /// The step of a cursor that is lent.
    StepAt(Vec<usize>, Cursor, Rooms),
    NewEjectionCursor(usize, usize),
    EjectionStep(Vec<usize>, Cursor, Option<usize>, Rooms),
    /// As a walk, over ejection windows: offset, size, limit.
    EjectionWalk(usize, usize, Option<usize>),
    /// Of such a walk the moves that the original's own stepping gives too, beside those: offset, size, limit, depth.
    OwnEjections(usize, usize, Option<usize>, usize),
    /// The final test and the refresh as one act.
    Apply(Lists),
    /// Refreshes and applications one after the other, each of the index that the one before left.
    Acts(Vec<(Act, Lists)>),
    /// A driver, a stamp, and the bytes of the output.
    DriverCalendar(usize, Octets, usize),
    ReadCalendar(Octets, Rooms),
    /// A driver's calendar under a stamp, and what was written read back.
    CalendarBack(usize, Octets),
}

#[derive(Clone, Copy, Debug, PartialEq, Eq)]
pub enum Kind {
    Tables,
    Admit,
    Build,
    Refresh,
    Final,
    Reinsert,
    Sound,
    Conflicts,
    Search,
    Ceiling,
    Order,
    NewCursor,
    Step,
    Walk,
    Ejection,
    Onward,
    Records,
    StepAt,
    NewEjectionCursor,
    EjectionStep,
    EjectionWalk,
    OwnEjections,
    Apply,
    Acts,
    DriverCalendar,
    ReadCalendar,
    CalendarBack,
}

/// Each kind, with the name of its export.
pub const KINDS: [(Kind, &str); 27] = [
    (Kind::Tables, "tables_refusal"),
    (Kind::Admit, "admit"),
    (Kind::Build, "build_index"),
    (Kind::Refresh, "refresh_rows"),
    (Kind::Final, "assignment_feasible_after_edits"),
    (Kind::Reinsert, "reinsert_value_allowed"),
    (Kind::Sound, "roster_sound"),
    (Kind::Conflicts, "capacity_conflicts"),
    (Kind::Search, "assignment_move_for_entity_value"),
    (Kind::Ceiling, "ask_ceiling"),
    (Kind::Order, "assigned_entities_by_position"),
    (Kind::NewCursor, "new_cursor"),
    (Kind::Step, "next_augmenting_rematch"),
    (Kind::Walk, "(a walk to Done)"),
    (Kind::Ejection, "ejection_reinsert_edits"),
    (Kind::Onward, "walk_augmenting_rematch"),
    (Kind::Records, "assignment_feasible_after_edit_records"),
    (Kind::StepAt, "next_augmenting_rematch_at"),
    (Kind::NewEjectionCursor, "new_ejection_cursor"),
    (Kind::EjectionStep, "next_ejection_reinsert"),
    (Kind::EjectionWalk, "(an ejection walk to Done)"),
    (Kind::OwnEjections, "(the original's own ejection walk)"),
    (Kind::Apply, "assignment_apply_edits"),
    (Kind::Acts, "(refreshes and applications in turn)"),
    (Kind::DriverCalendar, "driver_calendar"),
    (Kind::ReadCalendar, "read_calendar"),
    (Kind::CalendarBack, "(a calendar read back)"),
];

impl Question {
    pub fn kind(&self) -> Kind {
        match self {
            Question::Tables => Kind::Tables,
            Question::Admit => Kind::Admit,
            Question::Build => Kind::Build,
            Question::Refresh(_) => Kind::Refresh,
            Question::Final(_) => Kind::Final,
            Question::Reinsert(..) => Kind::Reinsert,
            Question::Sound => Kind::Sound,
            Question::Conflicts(_) => Kind::Conflicts,
            Question::Search(..) => Kind::Search,
            Question::Ceiling(..) => Kind::Ceiling,
            Question::Order(..) => Kind::Order,
            Question::NewCursor(..) => Kind::NewCursor,
            Question::Step(..) => Kind::Step,
            Question::Walk(..) => Kind::Walk,
            Question::Ejection(..) => Kind::Ejection,
            Question::Onward(..) => Kind::Onward,
            Question::Records(_) => Kind::Records,
            Question::StepAt(..) => Kind::StepAt,
            Question::NewEjectionCursor(..) => Kind::NewEjectionCursor,
            Question::EjectionStep(..) => Kind::EjectionStep,
            Question::EjectionWalk(..) => Kind::EjectionWalk,
            Question::OwnEjections(..) => Kind::OwnEjections,
            Question::Apply(_) => Kind::Apply,
            Question::Acts(_) => Kind::Acts,
            Question::DriverCalendar(..) => Kind::DriverCalendar,
            Question::ReadCalendar(..) => Kind::ReadCalendar,
            Question::CalendarBack(..) => Kind::CalendarBack,
        }
    }

    /// What a question does to an index, list by list.
    pub fn acts(&self) -> Vec<(Act, &Lists)> {
        match self {
            Question::Refresh(lists) => lists.iter().map(|list| (Act::Refresh, list)).collect(),
            Question::Apply(list) => vec![(Act::Apply, list)],
            Question::Acts(acts) => acts.iter().map(|(act, list)| (*act, list)).collect(),
            _ => Vec::new(),
        }
    }

    /// The single calls that a question is put as: its acts, or itself.
    pub fn calls(&self) -> Vec<Question> {
        match self {
            Question::Refresh(_) | Question::Acts(_) => {
                self.acts().into_iter().map(|(act, list)| Question::of_act(act, list.clone())).collect()
            }
            _ => vec![self.clone()],
        }
    }

    pub fn of_act(act: Act, list: Lists) -> Question {
        match act {
            Act::Refresh => Question::Refresh(vec![list]),
            Act::Apply => Question::Apply(list),
        }
    }

    /// The same question to the entry that is lent a struct, where there is one: its answer is the same.
    pub fn by_struct(&self) -> Option<Question> {
        match self {
            Question::Final(list) if list.rows.len() == list.values.len() => Some(Question::Records(list.clone())),
            Question::Step(order, at, rooms) => Some(Question::StepAt(order.clone(), *at, *rooms)),
            _ => None,
        }
    }
}

/// What stands in a number, a flag and a cell before a call: what a call leaves alone still shows it.
pub const FLAG_BEFORE: u8 = 0xa5;
pub const NUMBER_BEFORE: usize = 0xa5a5_a5a5_5a5a_5a5a;

pub fn cells_before(cells: usize) -> Vec<usize> {
    (0..cells).map(|i| NUMBER_BEFORE.rotate_left(i as u32 % 64) ^ i).collect()
}

/// The same of bytes: none is one of a calendar.
pub fn octets_before(octets: usize) -> Octets {
    Octets((0..octets).map(|i| 0x80 | (i as u8).wrapping_mul(37)).collect())
}

/// All that a call can be seen to do. A refresh has one of these for each of its lists, as have acts in turn, a walk one for each step, or for each call that goes on, a calendar that is read back two.
#[derive(Clone, Debug, PartialEq, Eq)]
pub struct Seen {
    pub code: u8,
    pub flag: u8,
    pub numbers: Vec<usize>,
    /// The third is a walk's in one call alone.
    pub outputs: [Vec<usize>; 3],
    /// The output of a calendar.
    pub octets: Octets,
    /// Records and members, where the entry may write them.
    pub index: [Vec<usize>; 2],
    /// Whether a cell in front of or behind a lent slice was written, or one that is only read.
    pub spilled: bool,
}

impl Seen {
    /// Nothing done yet: every cell is as it was.
    pub fn before(numbers: usize, rooms: Rooms, lent: Option<&Lent>) -> Seen {
        Seen {
            code: 0,
            flag: FLAG_BEFORE,
            numbers: vec![NUMBER_BEFORE; numbers],
            outputs: [cells_before(rooms[0]), cells_before(rooms[1]), Vec::new()],
            octets: Octets::default(),
            index: lent.map_or_else(Default::default, |l| [l.records.clone(), l.members.clone()]),
            spilled: false,
        }
    }
    pub fn refused(mut self, code: u8) -> Seen {
        self.code = code;
        self
    }
    pub fn answered(mut self, yes: bool) -> Seen {
        self.flag = u8::from(yes);
        self
    }
    /// Fills the front of an output.
    pub fn front(mut self, output: usize, cells: impl IntoIterator<Item = usize>) -> Seen {
        for (i, cell) in cells.into_iter().enumerate() {
            self.outputs[output][i] = cell;
        }
        self
    }
}
