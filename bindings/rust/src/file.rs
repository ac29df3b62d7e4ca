//! Roster files, as the listing program reads them: docs/RULES.md, 12.
use crate::layout::{MOST_ROWS, MOST_VALUES};
use crate::{Error, Index, Refusal, Roster, TableBuilder, TableFault, Tables};
use std::borrow::Borrow;
use std::collections::HashMap;
use std::fmt;

const HEADER: &str = "row,value,now,capacity,sequence";
const COLUMNS: [Column; 5] = [Column::Row, Column::Value, Column::Now, Column::Capacity, Column::Sequence];
const LINE_END: &str = "\r\n";
const MOST_BYTES: usize = 65_536;

/// A record of a roster file: a row, and a value that is legal for it.
#[derive(Clone, Copy, Debug, PartialEq, Eq, Hash)]
pub struct FileRecord {
    /// The row.
    pub row: usize,
    /// The value.
    pub value: usize,
    /// Whether the row holds the value.
    pub now: bool,
    /// The capacity key of the row under the value.
    pub capacity: Option<usize>,
    /// The sequence key of the row under the value.
    pub sequence: Option<usize>,
}

impl fmt::Display for FileRecord {
    fn fmt(&self, f: &mut fmt::Formatter<'_>) -> fmt::Result {
        write!(f, "{},{},{},", self.row, self.value, u8::from(self.now))?;
        self.capacity.map_or(Ok(()), |key| write!(f, "{key}"))?;
        f.write_str(",")?;
        self.sequence.map_or(Ok(()), |key| write!(f, "{key}"))
    }
}

/// A roster file that the listing program takes. Its text is `to_string()`, in ASCII, with a line end behind every line, the last one where 65,536 bytes have room for it; reading that gives the same records.
///
/// ```
/// use turepawon::{Edit, Error, RosterFile, Verdict};
/// let text = "row,value,now,capacity,sequence\r\n0,0,1,0,\r\n0,1,0,1,\r\n1,0,0,0,\r\n1,1,1,1,\r\n";
/// let file = RosterFile::read(text.as_bytes())?;
/// assert_eq!(file.to_string(), text);
///
/// // two drivers change places, and the roster is written again
/// let mut index = file.index()?;
/// assert_eq!(index.apply(&[Edit::assign(0, 1), Edit::assign(1, 0)])?, Verdict::Yes);
/// let written = RosterFile::of(&index)?.to_string();
/// assert_eq!(written.lines().nth(1), Some("0,0,0,0,"));
/// # Ok::<(), Error>(())
/// ```
#[derive(Clone, Debug, PartialEq, Eq, Hash)]
pub struct RosterFile {
    records: Vec<FileRecord>,
}

impl RosterFile {
    /// Reads a file's bytes.
    ///
    /// ```
    /// use turepawon::{FileFault, RosterFile};
    /// let fault = RosterFile::read(b"row,value,now,capacity,sequence\r\n0,0,1,,\r\n0,1,1,,\r\n").unwrap_err();
    /// assert_eq!(fault, FileFault::HeldTwice { line: 3, first: 2 });
    /// assert_eq!((fault.line(), fault.refusal().number()), (Some(3), 9));
    /// assert_eq!(fault.to_string(), "line 3: the row holds a value already, by line 2");
    /// ```
    ///
    /// # Errors
    /// What the program refuses, by the same number: 9 for a malformed file, at the first line that is, and only then 1 for over 128 rows or 64 values.
    pub fn read(bytes: &[u8]) -> Result<RosterFile, FileFault> {
        if bytes.len() > MOST_BYTES {
            let ends = bytes[..MOST_BYTES].windows(2).filter(|pair| *pair == LINE_END.as_bytes()).count();
            return Err(FileFault::TooLong { line: 1 + ends });
        }
        let mut lines = Lines { rest: Some(bytes) };
        if lines.next() != Some(HEADER.as_bytes()) {
            return Err(FileFault::Header);
        }
        let mut seen = Seen::default();
        let mut records = Vec::new();
        for (line, bytes) in (2..).zip(lines) {
            let record = read_record(line, bytes)?;
            seen.note(line, &record)?;
            records.push(record);
        }
        sizes_fit(&records)?;
        Ok(RosterFile { records })
    }

    /// A file of these records.
    ///
    /// # Errors
    /// As [`RosterFile::read`] for the text that they would have.
    pub fn new(records: impl IntoIterator<Item = FileRecord>) -> Result<RosterFile, FileFault> {
        let mut seen = Seen::default();
        let (mut length, mut kept) = (HEADER.len(), Vec::new());
        for (line, record) in (2..).zip(records) {
            length += LINE_END.len() + record.to_string().len();
            if length > MOST_BYTES {
                return Err(FileFault::TooLong { line });
            }
            seen.note(line, &record)?;
            kept.push(record);
        }
        sizes_fit(&kept)?;
        Ok(RosterFile { records: kept })
    }

    /// The file of an index: a record for each legal row and value, by row and then by value. Flags, positions, orders, candidates and edges have no place in a file, and rows and values behind the last that is named are not in it.
    ///
    /// # Errors
    /// [`FileFault::NoRecord`] where a row holds what is not legal; [`FileFault::TooLong`].
    pub fn of<T: Borrow<Tables>>(index: &Index<T>) -> Result<RosterFile, FileFault> {
        let (tables, roster) = (index.tables(), index.roster());
        let unsaid = |&row: &usize| roster.held(row).is_some_and(|value| !tables.value_is_legal(row, value));
        if let Some(row) = (0..roster.rows()).find(unsaid) {
            return Err(FileFault::NoRecord { row });
        }
        let pairs = (0..tables.rows()).flat_map(|row| (0..tables.values()).map(move |value| (row, value)));
        RosterFile::new(pairs.filter(|&(row, value)| tables.value_is_legal(row, value)).map(|(row, value)| FileRecord {
            row,
            value,
            now: roster.held(row) == Some(value),
            capacity: tables.capacity_key(row, value),
            sequence: tables.sequence_key(row, value),
        }))
    }

    /// Its records, line by line.
    #[must_use]
    pub fn records(&self) -> &[FileRecord] {
        &self.records
    }

    /// How many rows it has: one more than the largest that is named.
    #[must_use]
    pub fn rows(&self) -> usize {
        self.records.iter().map(|record| record.row + 1).max().unwrap_or(0)
    }

    /// How many values it has, likewise.
    #[must_use]
    pub fn values(&self) -> usize {
        self.records.iter().map(|record| record.value + 1).max().unwrap_or(0)
    }

    /// The tables that it makes: each record makes its row and value legal, with those keys. All else is no, or absent.
    ///
    /// # Errors
    /// None: what was read fits.
    pub fn tables(&self) -> Result<Tables, TableFault> {
        let mut board = TableBuilder::new(self.rows(), self.values());
        for &FileRecord { row, value, capacity, sequence, .. } in &self.records {
            board.legal(row, value, true).capacity(row, value, capacity).sequence(row, value, sequence);
        }
        board.build()
    }

    /// The roster that it makes.
    #[must_use]
    pub fn roster(&self) -> Roster {
        let held: HashMap<usize, usize> =
            self.records.iter().filter(|record| record.now).map(|record| (record.row, record.value)).collect();
        Roster::new((0..self.rows()).map(|row| held.get(&row).copied()))
    }

    /// Both, indexed.
    ///
    /// # Errors
    /// [`Error::Library`].
    pub fn index(&self) -> Result<Index, Error> {
        Index::build(self.tables()?, &self.roster())
    }
}

impl fmt::Display for RosterFile {
    fn fmt(&self, f: &mut fmt::Formatter<'_>) -> fmt::Result {
        let mut text = String::from(HEADER);
        for record in &self.records {
            text += LINE_END;
            text += &record.to_string();
        }
        if text.len() + LINE_END.len() <= MOST_BYTES {
            text += LINE_END;
        }
        f.write_str(&text)
    }
}

/// Lines that end in CR LF, the last one optionally.
struct Lines<'a> {
    rest: Option<&'a [u8]>,
}

impl<'a> Iterator for Lines<'a> {
    type Item = &'a [u8];

    fn next(&mut self) -> Option<&'a [u8]> {
        let rest = self.rest?;
        match rest.windows(2).position(|pair| pair == LINE_END.as_bytes()) {
            Some(end) => {
                let behind = &rest[end + LINE_END.len()..];
                self.rest = (!behind.is_empty()).then_some(behind);
                Some(&rest[..end])
            }
            None => self.rest.take(),
        }
    }
}

fn read_record(line: usize, bytes: &[u8]) -> Result<FileRecord, FileFault> {
    if bytes.iter().any(|byte| matches!(byte, b'\r' | b'\n')) {
        return Err(FileFault::LineEnd { line });
    }
    let fields: Vec<&[u8]> = bytes.split(|&byte| byte == b',').collect();
    let found = fields.len();
    let fields = <[&[u8]; 5]>::try_from(fields).map_err(|_| FileFault::Fields { line, found })?;
    let number = |at: usize| decimal(fields[at]).ok_or(FileFault::Number { line, column: COLUMNS[at] });
    let optional = |at: usize| if fields[at].is_empty() { Ok(None) } else { number(at).map(Some) };
    let (row, value) = (number(0)?, number(1)?);
    let now = match number(2)? {
        0 => false,
        1 => true,
        _ => return Err(FileFault::Number { line, column: Column::Now }),
    };
    Ok(FileRecord { row, value, now, capacity: optional(3)?, sequence: optional(4)? })
}

/// A bare decimal below 2^64: digits, and no zero in front of others.
fn decimal(field: &[u8]) -> Option<usize> {
    let bare = matches!(field, [b'0'] | [b'1'..=b'9', ..]);
    let digit = |&byte: &u8| byte.is_ascii_digit().then(|| usize::from(byte - b'0'));
    let add = |sum: usize, byte: &u8| sum.checked_mul(10)?.checked_add(digit(byte)?);
    field.iter().try_fold(0, add).filter(|_| bare)
}

/// Which line named a pair, and which a row as held.
#[derive(Default)]
struct Seen {
    pairs: HashMap<(usize, usize), usize>,
    held: HashMap<usize, usize>,
}

impl Seen {
    fn note(&mut self, line: usize, record: &FileRecord) -> Result<(), FileFault> {
        if let Some(first) = self.pairs.insert((record.row, record.value), line) {
            return Err(FileFault::PairTwice { line, first });
        }
        let before = if record.now { self.held.insert(record.row, line) } else { None };
        before.map_or(Ok(()), |first| Err(FileFault::HeldTwice { line, first }))
    }
}

fn sizes_fit(records: &[FileRecord]) -> Result<(), FileFault> {
    for (line, record) in (2..).zip(records) {
        if record.row >= MOST_ROWS {
            return Err(FileFault::Rows { line });
        }
        if record.value >= MOST_VALUES {
            return Err(FileFault::Values { line });
        }
    }
    Ok(())
}

/// A column of a roster file.
#[derive(Clone, Copy, Debug, PartialEq, Eq, Hash)]
#[allow(missing_docs)]
pub enum Column {
    Row,
    Value,
    Now,
    Capacity,
    Sequence,
}

/// What is wrong with a roster file, and in which line; the header is line 1.
#[derive(Clone, Copy, Debug, PartialEq, Eq, Hash)]
#[non_exhaustive]
#[allow(missing_docs)]
pub enum FileFault {
    /// Over 65,536 bytes: the line in which the first byte too many stands.
    TooLong { line: usize },
    /// The first line is not the header.
    Header,
    /// A CR or LF that is no line end.
    LineEnd { line: usize },
    /// Another number of fields than five.
    Fields { line: usize, found: usize },
    /// No bare decimal below 2^64, or for `now` neither 0 nor 1.
    Number { line: usize, column: Column },
    /// A row and value that an earlier line has.
    PairTwice { line: usize, first: usize },
    /// A row that holds a value by an earlier line.
    HeldTwice { line: usize, first: usize },
    /// A row over 127.
    Rows { line: usize },
    /// A value over 63.
    Values { line: usize },
    /// A file cannot say that a row holds what is not legal for it.
    NoRecord { row: usize },
}

impl FileFault {
    /// The line; none where the fault is in what was to be written.
    #[must_use]
    pub const fn line(&self) -> Option<usize> {
        match *self {
            FileFault::Header => Some(1),
            FileFault::NoRecord { .. } => None,
            FileFault::TooLong { line }
            | FileFault::LineEnd { line }
            | FileFault::Fields { line, .. }
            | FileFault::Number { line, .. }
            | FileFault::PairTwice { line, .. }
            | FileFault::HeldTwice { line, .. }
            | FileFault::Rows { line }
            | FileFault::Values { line } => Some(line),
        }
    }

    /// The program's refusal for it.
    #[must_use]
    pub const fn refusal(&self) -> Refusal {
        match self {
            FileFault::Rows { .. } | FileFault::Values { .. } => Refusal::Size,
            _ => Refusal::MalformedInput,
        }
    }
}

impl fmt::Display for FileFault {
    fn fmt(&self, f: &mut fmt::Formatter<'_>) -> fmt::Result {
        if let Some(line) = self.line() {
            write!(f, "line {line}: ")?;
        }
        match self {
            FileFault::TooLong { .. } => write!(f, "over {MOST_BYTES} bytes"),
            FileFault::Header => write!(f, "not the header {HEADER}"),
            FileFault::LineEnd { .. } => write!(f, "a line ends in CR LF, and has neither within"),
            FileFault::Fields { found, .. } => write!(f, "{found} fields, and a record has 5"),
            FileFault::Number { column: Column::Now, .. } => write!(f, "`now` is 0 or 1"),
            FileFault::Number { column, .. } => write!(f, "{column:?} is no bare decimal below 2^64"),
            FileFault::PairTwice { first, .. } => write!(f, "the row and value of line {first} again"),
            FileFault::HeldTwice { first, .. } => write!(f, "the row holds a value already, by line {first}"),
            FileFault::Rows { .. } => write!(f, "a row over {}", MOST_ROWS - 1),
            FileFault::Values { .. } => write!(f, "a value over {}", MOST_VALUES - 1),
            FileFault::NoRecord { row } => write!(f, "row {row} holds what is not legal for it, and a file cannot say so"),
        }
    }
}

impl std::error::Error for FileFault {}
