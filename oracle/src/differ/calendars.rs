//! Calendars as a model of its own, apart from the engine: dates by periods of 400 years, a writer, and a reader that takes a text apart line by line, and then holds it to what the writer gives. The original has no calendars.
use std::io::Write;

/// A row, and the day of its duty, counted from 1970-01-01.
pub type Duty = (usize, usize);

/// Year, month and day of the month.
pub type Date = (usize, usize, usize);

/// 9999-12-31.
pub const LAST_DAY: usize = 2_932_896;

/// The bytes of the longest calendar, of 128 duties.
pub const MOST_OCTETS: usize = 16_626;

/// 1970-01-01, in days from a first of March 400 years before year 0. Years begin with March here, so that a leap day is the last of its year.
const EPOCH: usize = 865_565;

/// Where the months of such a year begin, March first.
const MONTHS: [usize; 12] = [0, 31, 61, 92, 122, 153, 184, 214, 245, 275, 306, 337];

/// The date of a day that is counted as `EPOCH` is: whole periods, centuries, fours of years and years are taken off.
fn date_at(place: usize) -> Date {
    let (periods, day) = (place / 146_097, place % 146_097);
    // the last of four centuries has a day more, and so has the last of four years
    let centuries = (day / 36_524).min(3);
    let day = day - 36_524 * centuries;
    let (fours, day) = (day / 1_461, day % 1_461);
    let ones = (day / 365).min(3);
    let day = day - 365 * ones;
    let month = MONTHS.partition_point(|&first| first <= day) - 1;
    let year = 400 * periods + 100 * centuries + 4 * fours + ones + usize::from(month >= 10) - 400;
    (year, (month + 2) % 12 + 1, day - MONTHS[month] + 1)
}

/// None where there is no such date: then it is another's place.
fn place_of(date: Date) -> Option<usize> {
    let (year, month, day) = date;
    if !(1..=12).contains(&month) || day == 0 {
        return None;
    }
    let year = year + 400 - usize::from(month < 3);
    let place = 365 * year + year / 4 - year / 100 + year / 400 + MONTHS[(month + 9) % 12] + day - 1;
    (date_at(place) == date).then_some(place)
}

pub fn date_of(day: usize) -> Date {
    date_at(day + EPOCH)
}

/// None where there is no such date, or it is before 1970.
pub fn day_of(date: Date) -> Option<usize> {
    place_of(date)?.checked_sub(EPOCH)
}

pub fn is_date(date: Date) -> bool {
    place_of(date).is_some()
}

/// The digits of a date or a time, as one number, taken apart: the last two are of two digits.
fn in_three(digits: usize) -> Date {
    (digits / 10_000, digits / 100 % 100, digits % 100)
}

/// So many digits and nothing else, as a number.
fn number_in(text: &str, digits: usize) -> Option<usize> {
    let all = text.len() == digits && text.bytes().all(|octet| octet.is_ascii_digit());
    if all {
        text.parse().ok()
    } else {
        None
    }
}

fn stamped(stamp: &[u8]) -> Option<bool> {
    let (date, time) = std::str::from_utf8(stamp).ok()?.split_once('T')?;
    let (hours, minutes, seconds) = in_three(number_in(time.strip_suffix('Z')?, 6)?);
    Some(is_date(in_three(number_in(date, 8)?)) && hours < 24 && minutes < 60 && seconds <= 60)
}

/// Whether it is a UTC date-time: a leap second is taken at any minute.
pub fn is_stamp(stamp: &[u8]) -> bool {
    stamped(stamp) == Some(true)
}

/// What an event says, as it stands in the lines.
#[derive(Clone, Debug, PartialEq, Eq)]
pub struct Event {
    pub stamp: Vec<u8>,
    pub row: String,
    pub date: String,
}

pub fn event(stamp: &[u8], duty: Duty) -> Event {
    let (year, month, day) = date_of(duty.1);
    Event { stamp: stamp.to_vec(), row: duty.0.to_string(), date: format!("{year:04}{month:02}{day:02}") }
}

/// The text of events, whatever they say.
pub fn text_of(events: &[Event]) -> Vec<u8> {
    let mut text = b"BEGIN:VCALENDAR\r\nVERSION:2.0\r\nPRODID:-//turepawon//roster//EN\r\n".to_vec();
    for Event { stamp, row, date } in events {
        text.extend(b"BEGIN:VEVENT\r\nDTSTAMP:");
        text.extend(stamp);
        let lines = format_args!("\r\nUID:turepawon-row-{row}-{date}\r\nDTSTART;VALUE=DATE:{date}\r\nSUMMARY:Duty {row}\r\nEND:VEVENT\r\n");
        text.write_fmt(lines).expect("text");
    }
    text.extend(b"END:VCALENDAR\r\n");
    text
}

pub fn object(stamp: &[u8], duties: &[Duty]) -> Vec<u8> {
    let events: Vec<Event> = duties.iter().map(|&duty| event(stamp, duty)).collect();
    text_of(&events)
}

/// How many bytes an object of these duties has.
pub fn octets(duties: &[Duty]) -> usize {
    let digits = |row: usize| 1 + row.checked_ilog10().unwrap_or(0) as usize;
    63 + duties.iter().map(|duty| 125 + 2 * digits(duty.0)).sum::<usize>() + 15
}

/// A text without its folds: of the pieces between line ends, those that begin with a blank belong to what stands before them.
pub fn unfolded(input: &str) -> String {
    let mut pieces = input.split("\r\n");
    let mut text = pieces.next().unwrap_or_default().to_string();
    for piece in pieces {
        match piece.strip_prefix([' ', '\t']) {
            Some(more) => text += more,
            None => text.extend(["\r\n", piece]),
        }
    }
    text
}

fn event_in(lines: &[&str]) -> Option<Event> {
    let [_, stamp, _, date, row, _] = lines else { return None };
    Some(Event {
        stamp: stamp.strip_prefix("DTSTAMP:")?.into(),
        row: row.strip_prefix("SUMMARY:Duty ")?.into(),
        date: date.strip_prefix("DTSTART;VALUE=DATE:")?.into(),
    })
}

/// The events of an unfolded text, by their places between three lines and one.
pub fn events_in(text: &str) -> Option<Vec<Event>> {
    let lines: Vec<&str> = text.split("\r\n").collect();
    let [_, _, _, middle @ .., _, ""] = lines.as_slice() else { return None };
    middle.chunks(6).map(event_in).collect()
}

pub fn duty_in(event: &Event) -> Option<Duty> {
    Some((event.row.parse().ok()?, day_of(in_three(number_in(&event.date, 8)?))?))
}

/// The duties of what the writer writes, folded anywhere; of nothing else.
pub fn duties_in(input: &[u8]) -> Option<Vec<Duty>> {
    let text = unfolded(std::str::from_utf8(input).ok()?);
    let events = events_in(&text)?;
    let duties: Vec<Duty> = events.iter().map(duty_in).collect::<Option<_>>()?;
    let rising = duties.windows(2).all(|pair| pair[0].0 < pair[1].0);
    let (stamp, last) = (&events.first()?.stamp, duties.last()?.0);
    (rising && last < 128 && is_stamp(stamp) && object(stamp, &duties) == text.as_bytes()).then_some(duties)
}
