//! A driver's calendar written, a calendar read, and one read back that was written. The original has no calendars: who holds what on which day is the original's, and the rest the model's.
use super::super::calendars::{duties_in, object, Duty, MOST_OCTETS};
use super::super::lent::Lent;
use super::super::library::Library;
use super::super::question::{octets_before, Octets, Rooms, Seen, NUMBER_BEFORE};
use super::{list_asked, Guarded};
use crate::Original;

/// The rows that hold the driver and have a day, by the original's index.
pub fn duties(original: &Original, driver: usize) -> Vec<Duty> {
    let index = original.index();
    let days = index.values.iter().zip(&index.sequence_keys).enumerate();
    days.filter(|(_, (held, _))| **held == Some(driver)).filter_map(|(row, (_, day))| Some((row, (*day)?))).collect()
}

/// A call that wrote nothing. Numbers: the bytes written.
pub fn before(room: usize) -> Seen {
    Seen { octets: octets_before(room), ..Seen::before(1, [0, 0], None) }
}

fn written(duties: &[Duty], stamp: &[u8], room: usize) -> Seen {
    let text = object(stamp, duties);
    let mut seen = before(room);
    seen.octets.0[..text.len()].copy_from_slice(&text);
    seen.numbers[0] = text.len();
    seen
}

/// What is read fills the fronts of both outputs. Numbers: how many duties.
fn read(duties: &[Duty], rooms: Rooms) -> Seen {
    let seen = Seen { numbers: vec![duties.len()], ..Seen::before(1, rooms, None) };
    seen.front(0, duties.iter().map(|duty| duty.0)).front(1, duties.iter().map(|duty| duty.1))
}

pub fn write_expected(original: &Original, driver: usize, stamp: &[u8], room: usize) -> Seen {
    written(&duties(original, driver), stamp, room)
}

pub fn write_asked(library: &dyn Library, lent: &Lent, driver: usize, stamp: &[u8], room: usize) -> Seen {
    let (mut out, stood, mut count) = (Guarded::between(0xa5, &octets_before(room).0), stamp.to_vec(), NUMBER_BEFORE);
    let code = library.driver_calendar(lent, driver, stamp, out.inside(), &mut count);
    let spilled = out.spilled() || stood != stamp;
    Seen { code, numbers: vec![count], octets: Octets(out.take()), spilled, ..Seen::before(1, [0, 0], None) }
}

pub fn read_expected(text: &[u8], rooms: Rooms) -> Seen {
    read(&duties_in(text).expect("a text that is not refused"), rooms)
}

pub fn read_asked(library: &dyn Library, text: &[u8], rooms: Rooms) -> Seen {
    let stood = text.to_vec();
    let mut seen = list_asked(rooms, [], |given, [], _| library.read_calendar(text, given));
    seen.spilled |= stood != text;
    seen
}

/// What reads back is what the roster says, with no reader of the model between.
pub fn back_expected(lent: &Lent, original: &Original, driver: usize, stamp: &[u8]) -> Vec<Seen> {
    let duties = duties(original, driver);
    vec![written(&duties, stamp, MOST_OCTETS), read(&duties, [lent.rows; 2])]
}

pub fn back_asked(library: &dyn Library, lent: &Lent, driver: usize, stamp: &[u8]) -> Vec<Seen> {
    let seen = write_asked(library, lent, driver, stamp, MOST_OCTETS);
    if seen.code != 0 {
        return vec![seen];
    }
    let text = &seen.octets.0[..seen.numbers[0].min(MOST_OCTETS)];
    let back = read_asked(library, text, [lent.rows; 2]);
    vec![seen, back]
}
