//! How much stack each entry takes at its greatest: it runs on a stack of our own that was painted before, and what is left of the paint was not reached.
use crate::{boards, calendars, Board};
use std::ffi::c_void;
use std::hint::black_box;
use std::ptr::null_mut;
use turepawon::{layout, raw, EditRecord, EMPTY};

const SIZE: usize = 1 << 20;
const PAINT: u8 = 0xa5;
const ROOM: usize = 4096;

/// The thread attributes of glibc on x86-64: 56 bytes that only it reads.
#[repr(C, align(8))]
struct Attributes([u8; 56]);

extern "C" {
    fn pthread_attr_init(of: *mut Attributes) -> i32;
    fn pthread_attr_setstack(of: *mut Attributes, stack: *mut c_void, size: usize) -> i32;
    fn pthread_create(
        thread: *mut usize,
        of: *const Attributes,
        begin: extern "C" fn(*mut c_void) -> *mut c_void,
        with: *mut c_void,
    ) -> i32;
    fn pthread_join(thread: usize, answer: *mut *mut c_void) -> i32;
}

extern "C" fn run(work: *mut c_void) -> *mut c_void {
    // SAFETY: `reached` hands over a pointer to a closure that outlives the thread, which nobody else uses meanwhile.
    let work = unsafe { &mut *work.cast::<&mut dyn FnMut()>() };
    below(work);
    null_mut()
}

/// Far below what the C library writes at a thread's beginning and end, which is more than a small entry takes.
#[inline(never)]
fn below(work: &mut dyn FnMut()) {
    let above = [0_u8; 1 << 14];
    black_box(&above);
    work();
    black_box(&above);
}

/// How many bytes from the stack's upper end on were written at least once.
fn reached(mut work: &mut dyn FnMut()) -> usize {
    let mut stack = vec![PAINT; SIZE + 64];
    let begins = stack.as_ptr().align_offset(64);
    let mut of = Attributes([0; 56]);
    let mut thread = 0;
    // SAFETY: the stack is ours, aligned, and lives until the thread was joined; so does the closure.
    unsafe {
        assert_eq!(pthread_attr_init(&mut of), 0);
        assert_eq!(pthread_attr_setstack(&mut of, stack.as_mut_ptr().add(begins).cast(), SIZE), 0);
        assert_eq!(pthread_create(&mut thread, &of, run, (&raw mut work).cast()), 0);
        assert_eq!(pthread_join(thread, null_mut()), 0);
    }
    let left = stack[begins..begins + SIZE].iter().take_while(|&&byte| byte == PAINT).count();
    SIZE - left
}

/// The bytes that each entry takes beyond what a thread takes that does nothing, at its greatest over all boards: a list that fails at its keys stops before the edges are judged.
struct Greatest(Vec<(&'static str, usize)>);

impl Greatest {
    fn taken(&mut self, name: &'static str, work: &mut dyn FnMut()) {
        let nothing = reached(&mut || {});
        let bytes = reached(work) - nothing;
        match self.0.iter_mut().find(|line| line.0 == name) {
            Some(line) => line.1 = line.1.max(bytes),
            None => self.0.push((name, bytes)),
        }
    }
}

/// The tables, the index and the tests.
fn verdicts(greatest: &mut Greatest, board: &Board) {
    let lent = board.packed.lent();
    let (mut records, mut members) = (board.records.clone(), board.members.clone());
    let (r, m) = (board.records.as_slice(), board.members.as_slice());
    let (mut rows, mut values, mut flag, mut count) = (vec![0; ROOM], vec![0; ROOM], 0, 0);
    let list: Vec<usize> = (0..128).collect();
    let held = board.held.clone();
    let edits: Vec<EditRecord> = list.iter().map(|&row| EditRecord { row, value: held[row] }).collect();
    greatest.taken("tables_refusal", &mut || assert_eq!(raw::tables_refusal(lent), 0));
    greatest.taken("admit", &mut || assert_eq!(raw::admit(lent, r, m), 0));
    greatest.taken("build_index", &mut || assert_eq!(raw::build_index(lent, &held, &mut records, &mut members), 0));
    greatest.taken("refresh_rows, 128 rows", &mut || assert_eq!(raw::refresh_rows(lent, &mut records, &mut members, &list, &held), 0));
    greatest.taken("roster_sound", &mut || assert_eq!(raw::roster_sound(lent, r, m, &mut flag), 0));
    greatest.taken("assignment_feasible_after_edits, 128 edits", &mut || {
        assert_eq!(raw::assignment_feasible_after_edits(lent, r, m, &list, &held, &mut flag), 0)
    });
    greatest.taken("assignment_feasible_after_edit_records, 128 edits", &mut || {
        assert_eq!(raw::assignment_feasible_after_edit_records(&edits, lent, r, m, &mut flag), 0)
    });
    greatest.taken("assignment_apply_edits, 128 edits", &mut || {
        assert_eq!(raw::assignment_apply_edits(lent, &mut records, &mut members, &list, &held, &mut flag), 0)
    });
    greatest.taken("reinsert_value_allowed, 128 edits", &mut || {
        assert_eq!(raw::reinsert_value_allowed(lent, r, m, &list, &held, 127, 63, &mut flag), 0)
    });
    greatest.taken("capacity_conflicts", &mut || assert_eq!(raw::capacity_conflicts(lent, r, m, &mut values, &mut rows, &mut count), 0));
}

/// What lists rows and moves.
fn moves(greatest: &mut Greatest, board: &Board) {
    let lent = board.packed.lent();
    let (r, m) = (board.records.as_slice(), board.members.as_slice());
    let (mut rows, mut values, mut lengths) = (vec![0; ROOM], vec![0; ROOM], vec![0; ROOM]);
    let (mut flag, mut count, mut asks) = (0, 0, 0);
    let list: Vec<usize> = (0..128).collect();
    let request = raw::Request { row: 127, value: 0, depth: 8, displacement: 1, limit: 2, budget: 100_000 };
    let (mut cursor, mut at) = ([0, 3, 0, 8], turepawon::Cursor { start: 0, length: 3, variant: 0, longest: 8 });
    greatest.taken("assigned_entities_by_position", &mut || {
        assert_eq!(raw::assigned_entities_by_position(lent, r, m, 5, &mut rows, &mut count), 0)
    });
    greatest.taken("ask_ceiling", &mut || assert_eq!(raw::ask_ceiling(64, 8, &mut count), 0));
    greatest.taken("new_cursor", &mut || assert_eq!(raw::new_cursor(128, 8, &mut cursor), 0));
    greatest.taken("next_augmenting_rematch", &mut || {
        assert_eq!(raw::next_augmenting_rematch(lent, r, m, &list, &mut cursor, &mut rows, &mut values, &mut flag, &mut count), 0)
    });
    greatest.taken("next_augmenting_rematch_at", &mut || {
        assert_eq!(raw::next_augmenting_rematch_at(&mut at, lent, r, m, &list, &mut rows, &mut values, &mut flag, &mut count), 0)
    });
    // from the beginning again: the step may have found the end
    cursor = [0, 3, 0, 8];
    greatest.taken("walk_augmenting_rematch", &mut || {
        assert_eq!(
            raw::walk_augmenting_rematch(
                lent,
                r,
                m,
                &list,
                &mut cursor,
                &mut rows,
                &mut values,
                &mut lengths,
                &mut flag,
                &mut count,
                &mut asks
            ),
            0
        )
    });
    greatest.taken("ejection_reinsert_edits, 128 rows", &mut || {
        assert_eq!(raw::ejection_reinsert_edits(lent, r, m, &list, 5, EMPTY, &mut rows, &mut values, &mut flag, &mut count), 0)
    });
    let mut ejected = [0; 4];
    greatest.taken("new_ejection_cursor", &mut || assert_eq!(raw::new_ejection_cursor(128, 128, &mut ejected), 0));
    // the window of all rows
    ejected = [0, 128, 0, 128];
    greatest.taken("next_ejection_reinsert, 128 rows", &mut || {
        assert_eq!(raw::next_ejection_reinsert(lent, r, m, &list, &mut ejected, EMPTY, &mut rows, &mut values, &mut flag, &mut count), 0)
    });
    greatest.taken("assignment_move_for_entity_value, depth 8, displacing", &mut || {
        assert_eq!(raw::assignment_move_for_entity_value(lent, r, m, request, &mut rows, &mut values, &mut flag, &mut asks, &mut count), 0)
    });
}

/// What writes a driver's calendar and reads it.
fn calendar(greatest: &mut Greatest, board: &Board) {
    let (mut out, mut bytes, mut duties) = (vec![0; layout::CALENDAR_ROOM], 0, 0);
    let (mut rows, mut days) = ([0; 128], [0; 128]);
    greatest.taken("driver_calendar, 128 events", &mut || bytes = calendars::write(board, &mut out));
    greatest.taken("read_calendar, 128 events", &mut || duties = calendars::read(&out[..bytes], &mut rows, &mut days));
    assert_eq!(duties, 128);
}

pub fn table() {
    let mut greatest = Greatest(Vec::new());
    // keys with two holders, so that lists fail; a board where they pass; one where windows can be shifted, and nobody is free
    for board in [boards::taken_twice(true, 64), boards::week(true), boards::taken(true, 64)].map(Board::new) {
        verdicts(&mut greatest, &board);
        moves(&mut greatest, &board);
    }
    calendar(&mut greatest, &Board::new(boards::dated(128)));
    println!("| entry | bytes of stack |\n|---|---|");
    for (name, bytes) in greatest.0 {
        println!("| {name} | {bytes} |");
    }
}
