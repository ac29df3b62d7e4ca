//! A driver's duties as an iCalendar object, written and read back: docs/RULES.md, 13.
use crate::error::{check_library, taken};
use crate::layout::{CALENDAR_ROOM, MOST_ROWS};
use crate::{raw, Error, Index, Refusal, Tables};
use std::borrow::Borrow;
use std::fmt;
use std::time::{SystemTime, UNIX_EPOCH};

/// A row, and the day that it falls on, counted from 1970-01-01.
#[derive(Clone, Copy, Debug, PartialEq, Eq, Hash)]
#[allow(missing_docs)]
pub struct Duty {
    pub row: usize,
    pub day: usize,
}

/// When a calendar is written: a date and a time in UTC, as the text `YYYYMMDDTHHMMSSZ`.
///
/// Nothing is checked here: whether it is a stamp is for the library to say, which refuses by [`Refusal::BadStamp`] what is none. A second may be 60.
///
/// ```
/// use std::time::{Duration, UNIX_EPOCH};
/// use turepawon::{Error, Stamp};
/// assert_eq!(Stamp::utc((2026, 2, 28), (6, 5, 0)).to_string(), "20260228T060500Z");
/// assert_eq!(Stamp::try_from(UNIX_EPOCH + Duration::from_secs(951_782_400))?, Stamp::utc((2000, 2, 29), (0, 0, 0)));
/// # Ok::<(), Error>(())
/// ```
#[derive(Clone, Debug, PartialEq, Eq, Hash)]
pub struct Stamp(String);

impl Stamp {
    /// Of year, month and day, and of hour, minute and second.
    #[must_use]
    pub fn utc((year, month, day): (u64, u64, u64), (hour, minute, second): (u64, u64, u64)) -> Stamp {
        Stamp(format!("{year:04}{month:02}{day:02}T{hour:02}{minute:02}{second:02}Z"))
    }
}

impl TryFrom<SystemTime> for Stamp {
    type Error = Refusal;

    /// The second that the time falls into. A time before 1970 is refused here, by `BadStamp`.
    fn try_from(time: SystemTime) -> Result<Stamp, Refusal> {
        let seconds = time.duration_since(UNIX_EPOCH).map_err(|_| Refusal::BadStamp)?.as_secs();
        let (minutes, hours) = (seconds / 60, seconds / 3600);
        Ok(Stamp::utc(date(seconds / 86_400), (hours % 24, minutes % 60, seconds % 60)))
    }
}

/// The date of a day. Years begin in March here, so that a leap day is a year's last; 400 of them have 146,097 days.
fn date(day: u64) -> (u64, u64, u64) {
    let since = day + 719_468; // from 0000-03-01
    let (ages, since) = (since / 146_097, since % 146_097);
    let years = (since - since / 1_460 + since / 36_524 - since / 146_096) / 365;
    let since = since - (365 * years + years / 4 - years / 100);
    let months = (5 * since + 2) / 153;
    (400 * ages + years + months / 10, (months + 2) % 12 + 1, since - (153 * months + 2) / 5 + 1)
}

impl AsRef<str> for Stamp {
    fn as_ref(&self) -> &str {
        &self.0
    }
}

impl fmt::Display for Stamp {
    fn fmt(&self, f: &mut fmt::Formatter<'_>) -> fmt::Result {
        f.write_str(&self.0)
    }
}

impl<T: Borrow<Tables>> Index<T> {
    /// A driver's duties as an iCalendar object (RFC 5545), in ASCII: an all-day event for each row that the driver holds and that has a sequence key under them, rows rising. The key is the day, counted from 1970-01-01. The stamp, a [`Stamp`] or its text, says when this was written.
    ///
    /// An event's identifier is made of row and day alone: written again, by another stamp or for another driver, it is the same event. [`read_calendar`] reads the object back.
    ///
    /// ```
    /// use std::time::SystemTime;
    /// use turepawon::{read_calendar, Duty, Error, Index, Refusal, Roster, Stamp, Tables};
    /// let mut board = Tables::builder(3, 2);
    /// for duty in 0..3 {
    ///     board.legal(duty, 0, true).sequence(duty, 0, 20_512 + duty); // from 2026-02-28 on
    /// }
    /// let index = Index::build(board.build()?, &Roster::new([Some(0), None, Some(0)]))?;
    /// let calendar = index.driver_calendar(0, "20260214T081500Z")?;
    /// assert!(calendar.contains("UID:turepawon-row-2-20260302\r\nDTSTART;VALUE=DATE:20260302\r\nSUMMARY:Duty 2\r\n"));
    /// assert_eq!(read_calendar(calendar.as_bytes())?, [Duty { row: 0, day: 20_512 }, Duty { row: 2, day: 20_514 }]);
    ///
    /// // written now
    /// let now = Stamp::try_from(SystemTime::now())?;
    /// assert_eq!(index.driver_calendar(0, &now)?.len(), calendar.len());
    /// assert_eq!(index.driver_calendar(1, &now), Err(Refusal::NoDuty.into()));
    /// assert_eq!(index.driver_calendar(0, "2026-02-14T08:15Z"), Err(Refusal::BadStamp.into()));
    /// # Ok::<(), Error>(())
    /// ```
    ///
    /// # Errors
    /// [`Error::Refused`] by `BadStamp`; by `NoDuty` where the driver has no duty on a day, as one who is out of range; by `DayOutOfRange` where one is after 9999-12-31.
    pub fn driver_calendar(&self, driver: usize, stamp: impl AsRef<str>) -> Result<String, Error> {
        let (mut out, mut written) = (vec![0; CALENDAR_ROOM], 0);
        let stamp = stamp.as_ref().as_bytes();
        taken(raw::driver_calendar(self.lent(), &self.records, &self.members, driver, stamp, &mut out, &mut written))?;
        Ok(out.into_iter().take(written).map(char::from).collect())
    }
}

/// The duties of an object that [`Index::driver_calendar`] wrote, folded or not: every CR LF that a space or a tab follows is left out first, with that. All other bytes are refused, also where another program reads them. The stamp is not given back.
///
/// ```
/// use turepawon::{read_calendar, Duty, Error, Refusal};
/// let calendar = [
///     "BEGIN:VCALENDAR\r\nVERSION:2.0\r\nPRODID:-//turepawon//roster//EN\r\n",
///     "BEGIN:VEVENT\r\nDTSTAMP:20260214T081500Z\r\nUID:turepawon-row-7-19700101\r\n",
///     "DTSTART;VALUE=DATE:19700101\r\nSUMMARY:Duty 7\r\nEND:VEVENT\r\nEND:VCALENDAR\r\n",
/// ];
/// assert_eq!(read_calendar(calendar.concat().as_bytes())?, [Duty { row: 7, day: 0 }]);
/// assert_eq!(read_calendar(calendar.join("\r\n\t").as_bytes())?, [Duty { row: 7, day: 0 }]);
/// assert_eq!(read_calendar(calendar.join("\n").as_bytes()), Err(Refusal::BadCalendar.into()));
/// # Ok::<(), Error>(())
/// ```
///
/// # Errors
/// [`Error::Refused`] by `BadCalendar`; [`Error::Library`].
pub fn read_calendar(bytes: &[u8]) -> Result<Vec<Duty>, Error> {
    check_library()?;
    let (mut rows, mut days, mut count) = ([0; MOST_ROWS], [0; MOST_ROWS], 0);
    taken(raw::read_calendar(bytes, &mut rows, &mut days, &mut count))?;
    Ok(rows.into_iter().zip(days).take(count).map(|(row, day)| Duty { row, day }).collect())
}
