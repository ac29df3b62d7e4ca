//! Calendars written and read: worked days, each refusal of both entries, texts that are folded, and such as are no object.
use super::lists::Lists;
use crate::differ::calendars::{day_of, event, object, text_of, Event, LAST_DAY};
use crate::differ::lent::{pack, Damage, Lent, Slice, EMPTY};
use crate::differ::question::{Octets, Question};
use crate::tables::Tables;

const STAMP: &[u8] = b"20261118T003000Z";

fn write(driver: usize, stamp: &[u8], room: usize) -> Question {
    Question::DriverCalendar(driver, Octets(stamp.to_vec()), room)
}

fn read(text: &[u8], rooms: [usize; 2]) -> Question {
    Question::ReadCalendar(Octets(text.to_vec()), rooms)
}

/// A board of one driver, who holds every row, each on its day.
fn held(days: &[Option<usize>]) -> Lent {
    let rows = days.len();
    pack(&Tables { sequence: days.to_vec(), ..Tables::blank(rows, 1) }, &vec![Some(0); rows], 0)
}

fn worked_days(lists: &mut Lists) {
    for date in [(1970, 1, 1), (2000, 2, 29), (2100, 2, 28), (2100, 3, 1), (9999, 12, 31)] {
        let day = day_of(date).expect("a date");
        let (year, month, of_month) = date;
        lists.ask(&format!("{year}-{month:02}-{of_month:02}, day {day}"), &held(&[Some(day)]), write(0, STAMP, 205));
    }
    for late in [LAST_DAY + 1, EMPTY] {
        lists.ask(&format!("day {late}"), &held(&[Some(late)]), write(0, STAMP, 205));
    }
}

/// Rows of one, two and three digits among 128, of which the others have no day.
fn wide_rows(lists: &mut Lists) {
    let mut days = vec![None; 128];
    for (row, day) in [(0, 59), (9, 59), (10, 60), (99, 0), (100, 60), (127, 20_775)] {
        days[row] = Some(day);
    }
    lists.ask("rows 0, 9, 10, 99, 100 and 127 of 128", &held(&days), write(0, STAMP, 900));
}

/// Two drivers: the first has rows 0 and 3, of which row 3 has no day; the second row 1, and row 2 too late.
fn two_drivers() -> Lent {
    let mut tables = Tables::blank(4, 3);
    tables.sequence[0] = Some(20_775);
    tables.sequence[4] = Some(20_776);
    tables.sequence[7] = Some(LAST_DAY + 1);
    pack(&tables, &[Some(0), Some(1), Some(1), Some(0)], 0)
}

fn refused(lists: &mut Lists) {
    let lent = two_drivers();
    let mut ask = |name: &str, question| lists.ask(name, &lent, question);
    ask("two drivers, the first: one row has a day", write(0, STAMP, 205));
    ask("a byte of room less", write(0, STAMP, 204));
    ask("no room", write(0, STAMP, 0));
    ask("a byte of room more", write(0, STAMP, 206));
    ask("the second: a day is too late", write(1, STAMP, 400));
    ask("a day too late, and no room", write(1, STAMP, 0));
    ask("a driver who holds nothing", write(2, STAMP, 400));
    ask("a driver who holds nothing, and no room", write(2, STAMP, 0));
    ask("driver 3 of 3", write(3, STAMP, 400));
    ask("driver 2^64 - 1", write(EMPTY, STAMP, 400));
    ask("no stamp, and a driver who holds nothing", write(2, b"", 400));
    ask("no stamp, and a day too late", write(1, b"", 400));
    ask("no stamp, and no room", write(0, b"", 0));
    for (name, damage) in [
        ("marks one short", Damage::Length(Slice::Marks, -1)),
        ("members one short", Damage::Length(Slice::Members, -1)),
        ("a count of 65", Damage::CandidateCount(0, 65)),
        ("a held value 3", Damage::Record(0, 3)),
        ("one record cell changed", Damage::Record(16, 20_777)),
        ("a sequence key changed", Damage::Key(12, 20_774)),
    ] {
        let mut lent = two_drivers();
        damage.apply(&mut lent);
        lists.ask(&format!("{name}, and no stamp"), &lent, write(0, b"", 0));
        lists.ask(name, &lent, write(0, STAMP, 205));
    }
}

fn stamps(lists: &mut Lists) {
    let lent = held(&[Some(0)]);
    let stamps: [&[u8]; 24] = [
        b"00000229T000000Z",
        b"20000229T235960Z",
        b"19000229T000000Z",
        b"21000229T000000Z",
        b"20230229T000000Z",
        b"20240230T000000Z",
        b"20261131T000000Z",
        b"20261232T000000Z",
        b"20260018T000000Z",
        b"20261318T000000Z",
        b"20261100T000000Z",
        b"20261118T240000Z",
        b"20261118T006000Z",
        b"20261118T000061Z",
        b"99991231T235959Z",
        b"20261118t003000Z",
        b"20261118T003000z",
        b"20261118T003000",
        b"20261118T003000ZZ",
        b"20261118 003000Z",
        b"2026111:T003000Z",
        b"2026/118T003000Z",
        b"-2026118T003000Z",
        b"\xb20261118T003000Z",
    ];
    for stamp in stamps {
        lists.ask(&format!("stamp {}", stamp.escape_ascii()), &lent, write(0, stamp, 204 + usize::from(stamp.len() == 16)));
    }
}

/// Puts a text in at a place.
fn with(text: &[u8], at: usize, more: &[u8]) -> Vec<u8> {
    [&text[..at], more, &text[at..]].concat()
}

/// What the writer writes, as it is and folded, with room and without.
fn read_back(lists: &mut Lists) {
    let lent = held(&[Some(0)]);
    let one = object(STAMP, &[(7, 20_775)]);
    let two = object(STAMP, &[(9, 11_016), (127, LAST_DAY)]);
    let mut ask = |name: &str, text: &[u8], rooms| lists.ask(name, &lent, read(text, rooms));
    ask("an object of one event", &one, [1, 1]);
    ask("an object of two events", &two, [3, 4]);
    ask("no room for rows", &one, [0, 1]);
    ask("no room for days", &one, [1, 0]);
    ask("room for one row of two", &two, [1, 2]);
    ask("room for one day of two", &two, [2, 1]);
    let ends = one.len();
    for (name, at, fold) in [
        ("a fold in front", 0, &b"\r\n "[..]),
        ("a fold behind", ends, b"\r\n\t"),
        ("a fold in the midst of a word", 3, b"\r\n "),
        ("a fold by a tab", 100, b"\r\n\t"),
        ("a fold inside CR LF", 16, b"\r\n "),
        ("two folds running", 90, b"\r\n \r\n\t"),
    ] {
        ask(name, &with(&one, at, fold), [1, 1]);
    }
    let everywhere: Vec<u8> = one.iter().flat_map(|&octet| [b'\r', b'\n', b" \t"[usize::from(octet) % 2], octet]).collect();
    ask("a fold in front of every octet", &everywhere, [1, 1]);
    ask("a fold, and no room", &with(&one, 50, b"\r\n "), [0, 0]);
}

/// Texts of events that the writer does not write.
fn false_events(lists: &mut Lists) {
    let lent = held(&[Some(0)]);
    let right = event(STAMP, (7, 20_775));
    let row = |row: &str| Event { row: row.into(), ..right.clone() };
    let date = |date: &str| Event { date: date.into(), ..right.clone() };
    let stamp = |stamp: &[u8]| Event { stamp: stamp.to_vec(), ..right.clone() };
    let mut ask = |name: &str, events: &[Event]| lists.ask(name, &lent, read(&text_of(events), [2, 2]));
    ask("no event", &[]);
    ask("rows 7 and 6", &[right.clone(), row("6")]);
    ask("row 7 twice", &[right.clone(), right.clone()]);
    ask("rows 7 and 8 under two stamps", &[right.clone(), Event { row: "8".into(), ..stamp(b"20261118T003001Z") }]);
    ask("row 127", &[row("127")]);
    ask("row 128", &[row("128")]);
    ask("row 07", &[row("07")]);
    ask("row 2^64 + 7", &[row("18446744073709551623")]);
    ask("a row without digits", &[row("")]);
    for written in ["00000000", "19691231", "20010229", "21000229", "20230231", "20231301", "99991232", "100000101", "2026111"] {
        ask(&format!("date {written}"), &[date(written)]);
    }
    ask("a stamp of an hour 24", &[stamp(b"20261118T240000Z")]);
    ask("a stamp of second 60", &[stamp(b"20261118T003060Z")]);
    ask("no stamp", &[stamp(b"")]);
}

/// An object with one thing done to its octets.
fn damaged(lists: &mut Lists) {
    let lent = held(&[Some(0)]);
    let right = object(STAMP, &[(7, 20_775)]);
    let replaced = |from: &str, to: &str| {
        let text = String::from_utf8(right.clone()).expect("ASCII");
        text.replacen(from, to, 1).into_bytes()
    };
    let mut ask = |name: &str, text: &[u8]| lists.ask(name, &lent, read(text, [1, 1]));
    ask("nothing", b"");
    ask("a fold alone", b"\r\n ");
    ask("CR LF alone", b"\r\n");
    ask("the last LF missing", &right[..right.len() - 1]);
    ask("a byte behind the end", &with(&right, right.len(), b"\0"));
    ask("a bare LF", &replaced("2.0\r\n", "2.0\n"));
    ask("a line in small letters", &replaced("END:VEVENT", "end:vevent"));
    ask("another version", &replaced("VERSION:2.0", "VERSION:2.1"));
    ask("another row in the UID", &replaced("row-7", "row-8"));
    ask("another date in the UID", &replaced("-20261118\r\n", "-20261119\r\n"));
    ask("another row in the summary", &replaced("Duty 7", "Duty 8"));
    ask("a line more", &replaced("END:VEVENT", "CLASS:PUBLIC\r\nEND:VEVENT"));
    ask("a blank line", &replaced("2.0\r\n", "2.0\r\n\r\n"));
    ask("LF and a space", &with(&right, 30, b"\n "));
    ask("a fold by a vertical tab", &with(&right, 30, b"\r\n\x0b"));
    // what the fold joins is a CR LF and a space, and stays
    ask("a fold inside a fold", &with(&right, 30, b"\r\r\n \n "));
}

pub fn calendars(lists: &mut Lists) {
    lists.begin("calendars");
    worked_days(lists);
    wide_rows(lists);
    refused(lists);
    stamps(lists);
    read_back(lists);
    false_events(lists);
    damaged(lists);
    lists.end();
}
