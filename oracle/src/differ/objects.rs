//! Random days, stamps, and texts for the reader: what the writer writes, folded anywhere, damaged in one place; and short strings of bytes.
use super::calendars::{self, day_of, event, is_date, text_of, Event, LAST_DAY};
use super::question::{Octets, Question};
use super::random::Random;

/// Leap years and others, centuries of both sorts, and both ends.
const YEARS: [usize; 16] = [0, 1, 4, 100, 400, 1582, 1900, 1969, 1970, 1972, 2000, 2023, 2024, 2100, 2400, 9999];

/// A day of a calendar: any, at either end, or near the turn of a month.
pub fn day(random: &mut Random) -> usize {
    match random.below(8) {
        0 => random.below(3),
        1 => LAST_DAY - random.below(3),
        2..=4 => {
            let (year, month) = (random.pick(&YEARS[8..]), random.pick(&[1, 2, 3, 3, 3, 12]));
            (day_of((year, month, 1)).expect("a date") + random.below(3)).saturating_sub(1)
        }
        _ => random.below(LAST_DAY + 1),
    }
}

/// Days past the last one.
pub const LATE: [usize; 6] = [LAST_DAY + 1, LAST_DAY + 1, LAST_DAY + 2, 1 << 32, usize::MAX - 1, usize::MAX];

fn good_stamp(random: &mut Random) -> Vec<u8> {
    let year = if random.chance(500) { random.pick(&YEARS) } else { random.below(10_000) };
    let (year, month, day) = loop {
        let any = random.between(1, 31);
        let date = (year, random.pick(&[1, 2, 2, 2, 4, 11, 12]), random.pick(&[1, 28, 29, 30, 31, any]));
        if is_date(date) {
            break date;
        }
    };
    let mut up_to = |last: usize| {
        let any = random.below(last);
        random.pick(&[0, last, any])
    };
    let (hour, minute, second) = (up_to(23), up_to(59), up_to(60));
    format!("{year:04}{month:02}{day:02}T{hour:02}{minute:02}{second:02}Z").into_bytes()
}

/// Digits that are out of range, or may be, and where a stamp has them.
const FIELDS: [(usize, &[u8]); 16] = [
    (4, b"00"),
    (4, b"13"),
    (4, b"0229"),
    (4, b"0230"),
    (4, b"0431"),
    (4, b"1131"),
    (6, b"00"),
    (6, b"29"),
    (6, b"31"),
    (6, b"32"),
    (9, b"24"),
    (11, b"60"),
    (13, b"60"),
    (13, b"61"),
    (9, b"235960"),
    (0, b"0000"),
];

fn any_octet(random: &mut Random) -> u8 {
    let any = random.next() as u8;
    random.pick(&[b'0', b'9', b'/', b':', b' ', b'\t', b'\r', b'\n', b'T', b'Z', b't', b'z', b'-', 0, 255, any, any, any])
}

fn spoil_stamp(random: &mut Random, stamp: &mut Vec<u8>) {
    match random.below(12) {
        0..=5 => {
            let (at, digits) = random.pick(&FIELDS);
            stamp[at..at + digits.len()].copy_from_slice(digits);
        }
        6 => {
            stamp.remove(random.pick(&[0, 7, 8, 14, 15]));
        }
        7 => stamp.insert(random.pick(&[0, 8, 9, 15, 16]), random.pick(b"0TZ\n\0")),
        8 => stamp.truncate(random.below(16)),
        9 => stamp[random.pick(&[8, 15])..].make_ascii_lowercase(),
        _ => stamp[random.below(16)] = any_octet(random),
    }
}

/// Mostly a stamp, with every field at its bounds; else one that is damaged in one place.
pub fn stamp(random: &mut Random) -> Octets {
    let mut stamp = good_stamp(random);
    if random.chance(250) {
        spoil_stamp(random, &mut stamp);
    }
    Octets(stamp)
}

/// Events of rising rows under one stamp.
fn events(random: &mut Random) -> Vec<Event> {
    let most = if random.chance(30) { random.pick(&[40, 128]) } else { random.pick(&[1, 1, 1, 1, 1, 2, 2, 2, 3, 3, 5, 9]) };
    let mut rows: Vec<usize> = (0..most).map(|_| random.below(128)).collect();
    if random.chance(500) {
        rows.iter_mut().take(4).for_each(|row| *row = random.pick(&[0, 1, 9, 10, 99, 100, 126, 127]));
    }
    if most == 128 && random.chance(500) {
        rows = (0..128).collect();
    }
    rows.sort_unstable();
    rows.dedup();
    let stamp = good_stamp(random);
    rows.into_iter().map(|row| event(&stamp, (row, day(random)))).collect()
}

const NO_ROWS: [&str; 13] =
    ["128", "129", "255", "256", "1000", "18446744073709551615", "18446744073709551616", "007", "00", "+7", "-1", " 7", ""];
const NO_DATES: [&str; 15] = [
    "00000000",
    "19691231",
    "19700001",
    "19700100",
    "19700132",
    "19701301",
    "20010229",
    "21000229",
    "20000230",
    "20230431",
    "20231131",
    "99991232",
    "100000101",
    "2023010",
    "",
];

/// What an event says, or which there are, is otherwise.
fn spoil_events(random: &mut Random, events: &mut Vec<Event>) {
    let (at, count) = (random.below(events.len()), events.len());
    match random.below(9) {
        0 => events.swap(at, (at + 1) % count),
        1 => events.insert(at, events[at].clone()),
        2 => events[at].row = random.pick(&NO_ROWS).into(),
        3 | 4 => events[at].date = random.pick(&NO_DATES).into(),
        5 => events[at].stamp = good_stamp(random),
        6 => spoil_stamp(random, &mut events[at].stamp),
        7 => {
            let mut stamp = events[at].stamp.clone();
            spoil_stamp(random, &mut stamp);
            events.iter_mut().for_each(|event| event.stamp.clone_from(&stamp));
        }
        _ => events.clear(),
    }
}

/// Where the lines of a text begin, and its end.
pub fn line_starts(text: &[u8]) -> Vec<usize> {
    let mut starts = vec![0];
    starts.extend((0..text.len()).filter(|&at| text[at] == b'\n').map(|at| at + 1));
    starts
}

/// The text with a line put twice, taken out, or set behind the next one.
fn spoil_lines(random: &mut Random, text: &[u8]) -> Vec<u8> {
    let starts = line_starts(text);
    let mut lines: Vec<&[u8]> = starts.windows(2).map(|pair| &text[pair[0]..pair[1]]).collect();
    let at = random.below(lines.len().saturating_sub(1));
    match random.below(3) {
        0 => lines.insert(at, lines[at]),
        1 => {
            lines.remove(at);
        }
        _ => lines.swap(at, at + 1),
    }
    lines.concat()
}

fn insert(text: &mut Vec<u8>, at: usize, more: &[u8]) {
    text.splice(at..at, more.iter().copied());
}

/// Somewhere behind an octet of this kind.
fn behind(random: &mut Random, text: &[u8], octet: u8) -> usize {
    let places: Vec<usize> = (0..text.len()).filter(|&at| text[at] == octet).collect();
    if places.is_empty() {
        0
    } else {
        random.pick(&places) + 1
    }
}

/// One thing is done to the octets.
fn spoil_text(random: &mut Random, text: &mut Vec<u8>) {
    let at = random.below(text.len());
    match random.below(14) {
        0 | 1 => text[at] = any_octet(random),
        2 | 3 => {
            // a digit for a digit
            let at = (at..text.len()).find(|&at| text[at].is_ascii_digit()).unwrap_or(at);
            text[at] = random.pick(b"0123456789");
        }
        4 => {
            text.remove(at);
        }
        5 => text.insert(at, text[at]),
        6 => text.insert(at, any_octet(random)),
        7 => *text = spoil_lines(random, text),
        8 => text.extend(random.pick(&[&b"\r\n"[..], b" ", b"\0", b"\n", b"X", b"BEGIN:VCALENDAR\r\n", b"END:VCALENDAR\r\n"])),
        9 => {
            // a line end without its CR, or without its LF
            let at = behind(random, text, b'\r') - random.below(2);
            text.remove(at);
        }
        10 => text.truncate(at),
        11 => text[at] ^= 0x20,
        12 => insert(text, 0, random.pick(&[&b"\r\n"[..], b" ", b"\t", b"\xef\xbb\xbf", b"\n"])),
        _ => insert(text, at, random.pick(&[&b"\n "[..], b"\r ", b"\r\n\x0b", b"\r\n", b"\r\n\xa0", b"\r\n\r\n ", b"\r\r\n \n"])),
    }
}

/// Folds put in, also in front of everything, behind everything, inside a line end, and one behind the other.
fn fold(random: &mut Random, text: &mut Vec<u8>) {
    for _ in 0..random.pick(&[1, 1, 1, 2, 2, 3, 5, 20]) {
        let at = match random.below(8) {
            0 => 0,
            1 => text.len(),
            2 => behind(random, text, b'\r'),
            3 => behind(random, text, b'\n'),
            4 => behind(random, text, b' '),
            _ => random.below(text.len() + 1),
        };
        insert(text, at, random.pick(&[&b"\r\n "[..], b"\r\n ", b"\r\n\t", b"\r\n\t", b"\r\n \r\n\t"]));
    }
}

/// What looks like nothing, or like the begin of a line end or a fold.
fn short(random: &mut Random) -> Vec<u8> {
    (0..random.below(9)).map(|_| any_octet(random)).collect()
}

/// A text for the reader, with room for its events, or for one less.
pub fn reading(random: &mut Random) -> Question {
    let mut events = events(random);
    let count = events.len();
    let what = random.below(20);
    if (0..4).contains(&what) {
        spoil_events(random, &mut events);
    }
    let mut text = if what == 19 { short(random) } else { text_of(&events) };
    if (4..10).contains(&what) && !text.is_empty() {
        spoil_text(random, &mut text);
    }
    if random.chance(450) {
        fold(random, &mut text);
    }
    let mut room = || random.pick(&[count, count, count, count, count, count, count, count + 1, count + 3, 128, count - 1, 0]);
    Question::ReadCalendar(Octets(text), [room(), room()])
}

/// Rooms for a calendar of these duties: mostly as many bytes as it has.
pub fn room(random: &mut Random, duties: &[calendars::Duty]) -> usize {
    let needed = calendars::octets(duties);
    let less = random.below(needed);
    random.pick(&[needed, needed, needed, needed, needed, needed, needed + 1, needed + 100, needed - 1, needed - 1, less, 0])
}
