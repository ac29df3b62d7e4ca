//! A driver's calendar, written and read back: its bytes, folded in any way, damaged in any octet; every refusal, and that it leaves what was there; the largest calendar; and dates, beside those that stamps are made of.
use std::time::{Duration, UNIX_EPOCH};
use turepawon::layout::{self, CALENDAR_ROOM, LAST_DAY, MOST_ROWS, STAMP_LENGTH};
use turepawon::{raw, read_calendar, Duty, Index, Refusal, Roster, Stamp, Tables};

const STAMP: &str = "20260214T081500Z";
const BAD: Result<Vec<Duty>, Refusal> = Err(Refusal::BadCalendar);

fn duty(row: usize, day: usize) -> Duty {
    Duty { row, day }
}

/// A board of two drivers on which the second has these duties, with one row more than they need.
fn board(duties: &[Duty]) -> Index {
    let rows = duties.iter().map(|duty| duty.row + 2).max().unwrap_or(1).min(MOST_ROWS);
    let (mut board, mut held) = (Tables::builder(rows, 2), vec![None; rows]);
    for duty in duties {
        board.sequence(duty.row, 1, duty.day);
        held[duty.row] = Some(1);
    }
    Index::build(board.build().unwrap(), &Roster::new(held)).unwrap()
}

fn written(duties: &[Duty], stamp: &str) -> String {
    board(duties).driver_calendar(1, stamp).unwrap()
}

fn read(bytes: impl AsRef<[u8]>) -> Result<Vec<Duty>, Refusal> {
    read_calendar(bytes.as_ref()).map_err(|error| error.refusal().unwrap())
}

fn few() -> [Duty; 3] {
    [duty(0, 20_512), duty(9, 0), duty(10, LAST_DAY)]
}

#[test]
fn the_bytes() {
    let lines = [
        "BEGIN:VCALENDAR",
        "VERSION:2.0",
        "PRODID:-//turepawon//roster//EN",
        "BEGIN:VEVENT",
        "DTSTAMP:20260214T081500Z",
        "UID:turepawon-row-0-20260228",
        "DTSTART;VALUE=DATE:20260228",
        "SUMMARY:Duty 0",
        "END:VEVENT",
        "BEGIN:VEVENT",
        "DTSTAMP:20260214T081500Z",
        "UID:turepawon-row-9-19700101",
        "DTSTART;VALUE=DATE:19700101",
        "SUMMARY:Duty 9",
        "END:VEVENT",
        "BEGIN:VEVENT",
        "DTSTAMP:20260214T081500Z",
        "UID:turepawon-row-10-99991231",
        "DTSTART;VALUE=DATE:99991231",
        "SUMMARY:Duty 10",
        "END:VEVENT",
        "END:VCALENDAR",
        "",
    ];
    let calendar = written(&few(), STAMP);
    assert_eq!(calendar, lines.join("\r\n"));
    assert_eq!(read(calendar), Ok(few().to_vec()));
}

/// Only what the driver holds, and only where it has a key under this driver.
#[test]
fn whose_duties() {
    let mut board = Tables::builder(5, 2);
    board.sequence(0, 0, 3).sequence(1, 0, 4).sequence(1, 1, 5).sequence(2, 1, 6).sequence(4, 0, 2);
    let index = Index::build(board.build().unwrap(), &Roster::new([Some(0), Some(1), Some(0), None, Some(0)])).unwrap();
    let duties = |driver| read(index.driver_calendar(driver, STAMP).unwrap());
    assert_eq!(duties(0), Ok(vec![duty(0, 3), duty(4, 2)]));
    assert_eq!(duties(1), Ok(vec![duty(1, 5)]));
}

/// Each line after so many octets, and what goes on in the next behind the blank, which counts too.
fn folded(calendar: &str, width: usize, blank: &str) -> String {
    let mut text = String::new();
    for line in calendar.split_inclusive("\r\n") {
        let mut filled = 0;
        for octet in line.trim_end().chars() {
            if filled == width {
                text = text + "\r\n" + blank;
                filled = 1;
            }
            text.push(octet);
            filled += 1;
        }
        text += "\r\n";
    }
    text
}

#[test]
fn folded_at_75_and_at_any_width() {
    let calendar = written(&few(), STAMP);
    assert_eq!(folded(&calendar, 75, " "), calendar);
    for width in 2..=75 {
        for blank in [" ", "\t"] {
            let folded = folded(&calendar, width, blank);
            assert_eq!(folded == calendar, width >= 31, "{width}");
            assert_eq!(read(folded), Ok(few().to_vec()), "{width}");
        }
    }
}

#[test]
fn folded_everywhere() {
    let calendar = written(&few(), STAMP);
    let folds = ["\r\n ", "\r\n\t", "\r\n \r\n\t", "\r\n\t\r\n \r\n "];
    for fold in folds {
        // at every place, the first, the last, and those within a line's end among them
        for at in 0..=calendar.len() {
            assert_eq!(read([&calendar[..at], fold, &calendar[at..]].concat()), Ok(few().to_vec()), "{at}");
        }
        // and at all places
        let all: String = calendar.chars().flat_map(|octet| fold.chars().chain([octet])).collect();
        assert_eq!(read(all + fold), Ok(few().to_vec()));
    }
    // what is joined is not looked at again: here a fold comes about, and stays
    for at in 0..=calendar.len() {
        let joined = [&calendar[..at], "\r", "\r\n ", "\n ", &calendar[at..]].concat();
        assert_eq!(read(joined), BAD, "{at}");
    }
    // line ends that are none, and what is no fold
    for (from, to) in
        [("\r\n", "\n"), ("\r\n", "\r"), ("\r\n", "\n\r"), ("\r\n", " \r\n"), ("D", "\n D"), ("D", "\r D"), ("D", "\r\n\x0bD")]
    {
        assert_eq!(read(calendar.replace(from, to)), BAD, "{from:?} {to:?}");
    }
}

/// With an octet changed, left out, doubled, or cut off there, a text is read only where it is what is written under its own stamp: that of a single event may become another one.
#[test]
fn damaged_in_any_octet() {
    let stamp_stands = 85..85 + STAMP_LENGTH; // behind the header and two names
    for duties in [&few()[..], &few()[..1]] {
        let (index, calendar) = (board(duties), written(duties, STAMP).into_bytes());
        for at in 0..calendar.len() {
            let (front, back) = (&calendar[..at], &calendar[at + 1..]);
            for octet in *b"0129 \r\n:a\0\xff" {
                let text = [front, &[octet], back].concat();
                let again = index.driver_calendar(1, String::from_utf8_lossy(&text[stamp_stands.clone()]));
                let is_written = again.is_ok_and(|again| again.as_bytes() == text);
                assert_eq!(read(text), if is_written { Ok(duties.to_vec()) } else { BAD }, "{octet} at {at}");
            }
            for text in [[front, back].concat(), [front, &[calendar[at]; 2], back].concat(), front.to_vec()] {
                assert_eq!(read(text), BAD, "{at}");
            }
        }
    }
}

#[test]
fn texts_that_are_no_calendar() {
    let calendar = |duties: &[Duty]| written(duties, STAMP);
    let header = &calendar(&few())[..63];
    let event = |row: usize, day: usize| calendar(&[duty(row, day)])[63..].replace("END:VCALENDAR\r\n", "");
    let with = |events: &str| [header, events, "END:VCALENDAR\r\n"].concat();
    assert_eq!(read(with(&(event(3, 7) + &event(4, 7)))), Ok(vec![duty(3, 7), duty(4, 7)]));
    let other_stamp = event(4, 7).replace(STAMP, "20260214T081501Z");
    assert_eq!(read(with(&other_stamp)), Ok(vec![duty(4, 7)]));
    let zeros = event(1, 7).replace("row-1", "row-01").replace("Duty 1", "Duty 01");
    let past = event(127, 7).replace("127", "128");
    let huge = event(127, 7).replace("127", "18446744073709551617");
    let long_ago = event(1, 0).replace("19700101", "19691231");
    let leap = event(1, 20_512).replace("20260228", "20260229");
    let hour_24 = event(1, 7).replace("T08", "T24");
    let two_dates = event(1, 7).replacen("19700108", "19700109", 1);
    let two_rows = event(1, 7).replace("Duty 1", "Duty 2");
    let lower = event(1, 7).to_lowercase();
    let falling = event(4, 7) + &event(3, 7);
    let twice = event(4, 7) + &event(4, 8);
    let two_stamps = event(3, 7) + &other_stamp;
    let faults = [zeros, past, huge, long_ago, leap, hour_24, two_dates, two_rows, lower, falling, twice, two_stamps, String::new()];
    for events in faults {
        assert_eq!(read(with(&events)), BAD, "{events}");
    }
    let whole = calendar(&few());
    for text in [String::new(), "\r\n ".into(), whole.repeat(2), whole.clone() + "\r\n", "\u{feff}".to_string() + &whole] {
        assert_eq!(read(&text), BAD, "{text}");
    }
}

#[test]
fn stamps() {
    let index = board(&few());
    let good = [
        "00000101T000000Z",
        "00000229T235960Z",
        "99991231T235959Z",
        "20000229T120000Z",
        "20240229T120060Z",
        "21000228T000000Z",
        "20260430T000000Z",
        "20261130T000000Z",
        "20260731T000000Z",
    ];
    for stamp in good {
        let calendar = index.driver_calendar(1, stamp).unwrap();
        assert_eq!(calendar.matches(&format!("\r\nDTSTAMP:{stamp}\r\n")).count(), 3);
        assert_eq!(read(calendar), Ok(few().to_vec()), "{stamp}");
    }
    let bad = [
        "",
        "20260214T081500",
        "20260214T081500z",
        "20260214t081500Z",
        "20260214 081500Z",
        "20260214T081500ZZ",
        "020260214T081500Z",
        "2026-02-14T08:15",
        "20260014T081500Z",
        "20261314T081500Z",
        "20260200T081500Z",
        "20260229T081500Z",
        "21000229T081500Z",
        "20260230T081500Z",
        "20260431T081500Z",
        "20260632T081500Z",
        "20260214T240000Z",
        "20260214T086000Z",
        "20260214T081561Z",
        "2026021 T081500Z",
        "+0260214T081500Z",
        "20260214T0815é Z",
    ];
    for stamp in bad {
        assert_eq!(index.driver_calendar(1, stamp), Err(Refusal::BadStamp.into()), "{stamp}");
        assert_eq!(read(written(&few(), STAMP).replace(STAMP, stamp)), BAD, "{stamp}");
    }
    assert_eq!(index.driver_calendar(1, Stamp::utc((2026, 2, 14), (8, 15, 0))), index.driver_calendar(1, STAMP));
    for stamp in [Stamp::utc((10_000, 1, 1), (0, 0, 0)), Stamp::utc((2026, 2, 14), (24, 0, 0)), Stamp::utc((u64::MAX, 0, 0), (0, 0, 0))] {
        assert_eq!(index.driver_calendar(1, &stamp), Err(Refusal::BadStamp.into()), "{stamp}");
    }
    assert_eq!(Stamp::try_from(UNIX_EPOCH - Duration::from_nanos(1)), Err(Refusal::BadStamp));
    let second = UNIX_EPOCH + Duration::new(86_400 * 20_498 + 8 * 3_600 + 15 * 60 + 59, 999_999_999);
    assert_eq!(Stamp::try_from(second), Ok(Stamp::utc((2026, 2, 14), (8, 15, 59))));
}

/// Cells that nobody is to write.
const RUBBISH: u8 = 0xa5;

/// Records and members of an index.
type Cells<'a> = [&'a [usize]; 2];

/// All that a raw call leaves: code, bytes and their number.
fn raw_calendar(lent: raw::Lent, [records, members]: Cells, driver: usize, stamp: &str, room: usize) -> (u8, Vec<u8>, usize) {
    let (mut out, mut count) = (vec![RUBBISH; room], 77);
    let code = raw::driver_calendar(lent, records, members, driver, stamp.as_bytes(), &mut out, &mut count);
    (code, out, count)
}

#[test]
fn a_refused_calendar_leaves_everything() {
    // driver 0 has a row without a day; driver 1 a good one and one that is too late
    let mut late = Tables::builder(3, 2);
    late.sequence(0, 1, LAST_DAY).sequence(1, 1, LAST_DAY + 1);
    let late = Index::build(late.build().unwrap(), &Roster::new([Some(1), Some(1), Some(0)])).unwrap();
    let (records, members) = late.cells();
    let (lent, cells) = (late.tables().lent(), [records, members]);
    let with = |cells: &[usize], at: usize, to: usize| {
        let mut cells = cells.to_vec();
        cells[at] = to;
        cells
    };
    let mut marks = lent.marks.to_vec();
    marks[layout::candidate_counts_start(3, 2)] = 65;
    let many = raw::Lent { marks: &marks, ..lent };
    let (no_value, crowded) = (with(records, 2, 2), with(members, layout::by_value_start(3), 2));
    // each has all later faults too, but for those that shut each other out
    let cases: [(u8, raw::Lent, Cells, usize, &str); 9] = [
        (1, raw::Lent { keys: &lent.keys[1..], ..many }, [&no_value, &crowded], 0, ""),
        (1, lent, [&records[1..], members], 1, STAMP),
        (2, many, [&no_value, &crowded], 0, ""),
        (3, lent, [&no_value, &crowded], 0, ""),
        (6, lent, [records, &crowded], 0, ""),
        (17, lent, cells, 0, "20260214T240000Z"),
        (17, lent, cells, 1, ""),
        (16, lent, cells, 0, STAMP),
        (11, lent, cells, 1, STAMP),
    ];
    for (code, lent, cells, driver, stamp) in cases {
        for room in [0, 1, CALENDAR_ROOM] {
            assert_eq!(raw_calendar(lent, cells, driver, stamp, room), (code, vec![RUBBISH; room], 77), "{code} {room}");
        }
    }
    for driver in [0, 2, 63, 64, 128, usize::MAX - 1, usize::MAX] {
        assert_eq!(late.driver_calendar(driver, STAMP), Err(Refusal::NoDuty.into()), "{driver}");
    }
    assert_eq!(late.driver_calendar(1, STAMP), Err(Refusal::DayOutOfRange.into()));
    assert_eq!(board(&[duty(0, usize::MAX)]).driver_calendar(1, STAMP), Err(Refusal::DayOutOfRange.into()));
    assert_eq!(board(&[]).driver_calendar(1, STAMP), Err(Refusal::NoDuty.into()));
}

#[test]
fn room_for_the_bytes() {
    let (index, calendar) = (board(&few()), written(&few(), STAMP));
    let (records, members) = index.cells();
    let asked = |room| raw_calendar(index.tables().lent(), [records, members], 1, STAMP, room);
    for room in 0..calendar.len() {
        assert_eq!(asked(room), (7, vec![RUBBISH; room], 77));
    }
    for more in [0, 1, 1000] {
        let bytes = [calendar.as_bytes(), &vec![RUBBISH; more]].concat();
        assert_eq!(asked(calendar.len() + more), (0, bytes, calendar.len()));
    }
}

#[test]
fn room_for_the_duties() {
    let calendar = written(&few(), STAMP);
    let asked = |bytes: &[u8], rows: usize, days: usize| {
        let (mut out_rows, mut out_days, mut count) = (vec![7777; rows], vec![8888; days], 99);
        (raw::read_calendar(bytes, &mut out_rows, &mut out_days, &mut count), out_rows, out_days, count)
    };
    for (rows, days) in [(0, 0), (0, 3), (3, 0), (2, 3), (3, 2), (2, 128), (128, 2)] {
        assert_eq!(asked(calendar.as_bytes(), rows, days), (7, vec![7777; rows], vec![8888; days], 99));
        // no calendar comes before no room
        assert_eq!(asked(&calendar.as_bytes()[1..], rows, days), (13, vec![7777; rows], vec![8888; days], 99));
    }
    assert_eq!(asked(b"", 128, 128), (13, vec![7777; 128], vec![8888; 128], 99));
    let (rows, days) = (vec![0, 9, 10, 7777], vec![20_512, 0, LAST_DAY, 8888, 8888]);
    assert_eq!(asked(calendar.as_bytes(), 4, 5), (0, rows.clone(), days.clone(), 3));
    assert_eq!(asked(calendar.as_bytes(), 3, 3), (0, rows[..3].to_vec(), days[..3].to_vec(), 3));
}

#[test]
fn the_largest_calendar() {
    let duties: Vec<Duty> = (0..MOST_ROWS).map(|row| duty(row, LAST_DAY - row)).collect();
    let calendar = written(&duties, STAMP);
    assert_eq!((calendar.len(), STAMP.len()), (CALENDAR_ROOM, STAMP_LENGTH));
    assert!(calendar.split("\r\n").all(|line| line.len() <= 31));
    assert_eq!(read(&calendar), Ok(duties.clone()));
    assert_eq!(read(folded(&calendar, 2, "\t")), Ok(duties));
    for more in ["\n", "BEGIN:VEVENT\r\n", &calendar[63..]] {
        assert_eq!(read(calendar.clone() + more), BAD);
    }
}

/// Every 1,009th day, and those around the ends of years in which a leap day is or is not: the date is the one that a stamp has.
#[test]
fn dates() {
    let new_year = |years: usize| 365 * years + (years + 1) / 4;
    let ends = [0, 2, 3, 30, 31].map(new_year).into_iter().flat_map(|day| day..day + 61);
    let days: Vec<usize> = (0..=LAST_DAY).step_by(1_009).chain(ends).chain(47_540..47_545).chain(LAST_DAY - 61..=LAST_DAY).collect();
    for days in days.chunks(MOST_ROWS) {
        let duties: Vec<Duty> = days.iter().enumerate().map(|(row, &day)| duty(row, day)).collect();
        let calendar = written(&duties, STAMP);
        assert_eq!(read(&calendar), Ok(duties.clone()));
        let starts = calendar.lines().filter_map(|line| line.strip_prefix("DTSTART;VALUE=DATE:"));
        for (duty, start) in duties.iter().zip(starts) {
            let midnight = UNIX_EPOCH + Duration::from_secs(86_400 * duty.day as u64);
            assert_eq!(Stamp::try_from(midnight).unwrap().to_string(), format!("{start}T000000Z"), "{}", duty.day);
        }
    }
    for (day, date) in [(0, "19700101"), (11_016, "20000229"), (47_540, "21000228"), (47_541, "21000301"), (LAST_DAY, "99991231")] {
        assert!(written(&[duty(1, day)], STAMP).contains(&format!("DATE:{date}\r\n")), "{date}");
    }
}
