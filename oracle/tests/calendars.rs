//! The model of calendars by itself: every day follows the one before as the rule says, and what is written reads back.
use oracle::differ::calendars::{date_of, day_of, duties_in, is_stamp, object, octets, unfolded, LAST_DAY, MOST_OCTETS};

const STAMP: &[u8] = b"20240229T235960Z";

fn leap(year: usize) -> bool {
    year % 4 == 0 && (year % 100 != 0 || year % 400 == 0)
}

fn month_days(year: usize, month: usize) -> usize {
    match month {
        2 => 28 + usize::from(leap(year)),
        4 | 6 | 9 | 11 => 30,
        _ => 31,
    }
}

#[test]
fn every_day() {
    let mut date = (1970, 1, 1);
    for day in 0..=LAST_DAY {
        assert_eq!((date_of(day), day_of(date)), (date, Some(day)));
        let (year, month, of_month) = date;
        date = match (month, of_month == month_days(year, month)) {
            (_, false) => (year, month, of_month + 1),
            (12, true) => (year + 1, 1, 1),
            (_, true) => (year, month + 1, 1),
        };
    }
    assert_eq!(date, (10_000, 1, 1));
}

/// Of every year those dates alone that it has.
#[test]
fn stamps() {
    for year in 0..10_000 {
        for (month, day) in [0, 1, 2, 4, 12, 13].into_iter().flat_map(|month| [0, 1, 28, 29, 30, 31, 32].map(|day| (month, day))) {
            let there = (1..=12).contains(&month) && day >= 1 && day <= month_days(year, month);
            assert_eq!(is_stamp(format!("{year:04}{month:02}{day:02}T235960Z").as_bytes()), there, "{year} {month} {day}");
        }
    }
    for (time, taken) in [("240000", false), ("236000", false), ("235961", false), ("000060", true), ("00000", false), ("0000000", false)] {
        assert_eq!(is_stamp(format!("20240229T{time}Z").as_bytes()), taken, "{time}");
    }
    let others: [&[u8]; 6] = [b"", b"T", b"20240229t000000Z", b"20240229T000000z", b"20240229T+00000Z", b"\xff0240229T000000Z"];
    assert!(others.iter().all(|stamp| !is_stamp(stamp)));
}

#[test]
fn read_back() {
    for duties in [vec![(0, 0)], vec![(9, LAST_DAY), (10, 0), (127, 59)], (0..128).map(|row| (row, 367 * row)).collect()] {
        let text = object(STAMP, &duties);
        assert_eq!((text.len(), duties_in(&text)), (octets(&duties), Some(duties.clone())));
        for at in 0..=text.len().min(400) {
            let folded = [&text[..at], b"\r\n\t\r\n ", &text[at..]].concat();
            assert_eq!(duties_in(&folded), Some(duties.clone()));
        }
    }
    let all: Vec<_> = (0..128).map(|row| (row, 0)).collect();
    assert_eq!(octets(&all), MOST_OCTETS);
    for duties in [vec![], vec![(1, 0), (0, 0)], vec![(1, 0), (1, 1)], vec![(128, 0)]] {
        assert_eq!(duties_in(&object(STAMP, &duties)), None);
    }
}

/// In one pass: what a fold joins is not looked at again.
#[test]
fn folds() {
    for (text, without) in [
        ("", ""),
        ("\r\n ", ""),
        ("\r\n\t\r\n ", ""),
        ("\r\n", "\r\n"),
        ("a\r\n b", "ab"),
        ("a\r\n  b", "a b"),
        ("\n b\r b", "\n b\r b"),
        ("\r\r\n \n b", "\r\n b"),
        ("\r\n\r\n b", "\r\nb"),
    ] {
        assert_eq!(unfolded(text), without);
    }
}
