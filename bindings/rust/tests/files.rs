//! Roster files: what the listing program says of its own files is said here too, what is written reads back, and each fault has its line.
use std::fmt::Write;
use std::path::PathBuf;
use turepawon::{Column, Cursor, Edit, Error, FileFault, FileRecord, Index, Roster, RosterFile, Tables};

const HEADER: &str = "row,value,now,capacity,sequence\r\n";

/// What the listing program writes of a file.
fn listing(bytes: &[u8]) -> Result<String, Error> {
    let index = RosterFile::read(bytes)?.index()?;
    let order = index.assigned_entities_by_position(0)?;
    let mut text = String::from("reason,move,row,value\r\n");
    for (number, edits) in (1..).zip(index.rematches(&order, Cursor::new(&order, 4)?)) {
        for Edit { row, value } in edits? {
            write!(text, "scalar_assignment_augmenting_rematch,{number},{row},{}\r\n", value.unwrap()).unwrap();
        }
    }
    Ok(text)
}

#[test]
fn the_programs_own_files() {
    let program = PathBuf::from(env!("CARGO_MANIFEST_DIR")).join("../../crates/list_files");
    let names = std::fs::read_to_string(program.join("args")).unwrap();
    let mut expected = std::fs::read_to_string(program.join("stdout")).unwrap();
    let mut compared = 0;
    for name in names.lines() {
        expected = expected.strip_prefix(&format!("{name}\n")).unwrap_or_else(|| panic!("{name}")).to_string();
        // a folder, and a name that no file has: only the program opens files
        let said = match std::fs::read(program.join("data").join(name)) {
            Ok(bytes) => listing(&bytes).unwrap_or_else(|error| format!("refused,{}\r\n", error.number().unwrap())),
            Err(_) => "refused,9\r\n".to_string(),
        };
        expected = expected.strip_prefix(&said).unwrap_or_else(|| panic!("{name}: {said}")).to_string();
        compared += 1;
    }
    assert!(expected.is_empty() && compared >= 28, "{compared} files");
}

#[test]
fn the_example_of_the_readme() {
    let path = PathBuf::from(env!("CARGO_MANIFEST_DIR")).join("../../examples/roster.csv");
    let bytes = std::fs::read(path).unwrap();
    assert_eq!(listing(&bytes).unwrap().lines().count(), 7);
    assert_eq!(RosterFile::read(&bytes).unwrap().to_string().into_bytes(), bytes);
}

/// Numbers that look random and are the same in every run.
struct Numbers(u64);

impl Numbers {
    fn next(&mut self) -> u64 {
        self.0 ^= self.0 << 13;
        self.0 ^= self.0 >> 7;
        self.0 ^= self.0 << 17;
        self.0
    }
    fn below(&mut self, bound: usize) -> usize {
        (self.next() % bound as u64) as usize
    }
    /// Nothing, a small number, or one of any length.
    fn key(&mut self) -> Option<usize> {
        let size = self.below(65);
        match self.below(3) {
            0 => None,
            1 => Some(self.below(4)),
            _ => Some(self.next() as usize >> size.min(63)),
        }
    }
    /// Records that a file can have, in any order.
    fn records(&mut self) -> Vec<FileRecord> {
        let (rows, values) = (1 + self.below(128), 1 + self.below(64));
        let mut records: Vec<FileRecord> = Vec::new();
        for _ in 0..self.below(400) {
            let (row, value) = (self.below(rows), self.below(values));
            if records.iter().all(|record| (record.row, record.value) != (row, value)) {
                let now = self.below(3) == 0 && records.iter().all(|record| record.row != row || !record.now);
                records.push(FileRecord { row, value, now, capacity: self.key(), sequence: self.key() });
            }
        }
        records
    }
}

#[test]
fn what_is_written_reads_back() {
    let mut numbers = Numbers(2026);
    for _ in 0..300 {
        let records = numbers.records();
        let file = RosterFile::new(records.clone()).unwrap();
        let text = file.to_string();
        assert_eq!(RosterFile::read(text.as_bytes()).as_ref(), Ok(&file));
        assert_eq!(RosterFile::read(text.strip_suffix("\r\n").unwrap().as_bytes()).as_ref(), Ok(&file));
        assert_eq!(file.records(), records);
        // by way of tables, roster and index: the same records, by row and value
        let again = RosterFile::of(&file.index().unwrap()).unwrap();
        let mut sorted = records;
        sorted.sort_by_key(|record| (record.row, record.value));
        assert_eq!(again.records(), sorted);
    }
}

#[test]
fn files_of_the_largest_size() {
    // the header, 3,274 lines of 20 bytes, and what is left in the key of one more
    let line = |i: usize| format!("\r\n{:0<17},", format!("{},{},0,7", i / 64, i % 64));
    let begin = HEADER.trim_end().to_string() + &(0..3274).map(line).collect::<String>();
    for size in 65_530..=65_540 {
        let key = "9".repeat(size - begin.len() - "\r\n127,63,1,,".len());
        let text = format!("{begin}\r\n127,63,1,{key},");
        assert_eq!(text.len(), size);
        let Ok(file) = RosterFile::read(text.as_bytes()) else {
            assert!(size > 65_536, "{size}");
            continue;
        };
        assert!(size <= 65_536 && file.to_string().len() <= 65_536, "{size}");
        assert_eq!(file.to_string(), if size <= 65_534 { text + "\r\n" } else { text });
        assert_eq!(RosterFile::read(file.to_string().as_bytes()).as_ref(), Ok(&file));
        assert_eq!(RosterFile::new(file.records().to_vec()).as_ref(), Ok(&file));
    }
}

#[test]
fn a_file_has_one_reading() {
    let mut numbers = Numbers(7);
    let (mut read, mut refused) = (0, 0);
    for _ in 0..20_000 {
        let mut bytes = format!("{HEADER}0,0,1,0,\r\n0,1,0,,12\r\n10,2,1,7,0").into_bytes();
        for _ in 0..=numbers.below(3) {
            // mostly behind the header, where more than one text is a file
            let from = if numbers.below(8) == 0 { 0 } else { HEADER.len() };
            let (at, byte) = (from + numbers.below(bytes.len() - from), b"0123,\r\n a\"-;"[numbers.below(12)]);
            match numbers.below(3) {
                0 => bytes[at] = byte,
                1 => bytes.insert(at, byte),
                _ => drop(bytes.remove(at)),
            }
        }
        match RosterFile::read(&bytes) {
            Ok(file) => {
                let text = file.to_string().into_bytes();
                assert!(text == bytes || text == [&bytes[..], b"\r\n"].concat());
                read += 1;
            }
            Err(fault) => {
                assert!(fault.line().is_some_and(|line| (1..=6).contains(&line)), "{fault}");
                refused += 1;
            }
        }
    }
    assert!(read > 1000 && refused > 1000, "{read} read, {refused} refused");
}

fn fault(lines: &str) -> FileFault {
    RosterFile::read(format!("{HEADER}{lines}").as_bytes()).unwrap_err()
}

#[test]
fn each_fault_by_line() {
    let number = |line, column| FileFault::Number { line, column };
    assert_eq!(RosterFile::read(b""), Err(FileFault::Header));
    assert_eq!(fault("0,0,1,,\n"), FileFault::LineEnd { line: 2 });
    assert_eq!(fault("0,0,1,,\r\r\n"), FileFault::LineEnd { line: 2 });
    assert_eq!(fault("\r\n"), FileFault::Fields { line: 2, found: 1 });
    assert_eq!(fault("0,0,1,,\r\n0,1,0,\r\n"), FileFault::Fields { line: 3, found: 4 });
    assert_eq!(fault(",0,1,,"), number(2, Column::Row));
    assert_eq!(fault("0,18446744073709551616,1,,"), number(2, Column::Value));
    assert_eq!(fault("0,0,2,,"), number(2, Column::Now));
    assert_eq!(fault("0,0,1,01,"), number(2, Column::Capacity));
    assert_eq!(fault("0,0,1,,+1"), number(2, Column::Sequence));
    assert_eq!(fault("0,0,1,,\r\n1,0,0,,\r\n0,0,0,,\r\n"), FileFault::PairTwice { line: 4, first: 2 });
    assert_eq!(fault("0,0,1,,\r\n0,1,1,,\r\n"), FileFault::HeldTwice { line: 3, first: 2 });
    assert_eq!(fault("0,0,1,,\r\n128,0,0,,\r\n"), FileFault::Rows { line: 3 });
    assert_eq!(fault("0,64,1,18446744073709551615,"), FileFault::Values { line: 2 });
    // malformed comes before too large, wherever it stands
    assert_eq!(fault("200,0,0,,\r\n0,0,0,,\r\n0,0,0,,"), FileFault::PairTwice { line: 4, first: 3 });
    assert_eq!(fault(&"0,0,0,,\r\n".repeat(8000)), FileFault::TooLong { line: 7280 });
    assert_eq!(fault("200,0,0,,").to_string(), "line 2: a row over 127");
}

#[test]
fn what_a_file_cannot_say() {
    let tables = Tables::builder(2, 1).legal(0, 0, true).build().unwrap();
    let index = Index::build(&tables, &Roster::new([None, Some(0)])).unwrap();
    assert_eq!(RosterFile::of(&index), Err(FileFault::NoRecord { row: 1 }));
    let index = Index::build(&tables, &Roster::new([Some(0), None])).unwrap();
    assert_eq!(RosterFile::of(&index).unwrap().to_string(), format!("{HEADER}0,0,1,,\r\n"));
    // 128 rows of 64 values, each with keys of twenty digits, are too many bytes
    let mut full = Tables::builder(128, 64);
    for (row, value) in (0..128).flat_map(|row| (0..64).map(move |value| (row, value))) {
        full.legal(row, value, true).capacity(row, value, usize::MAX).sequence(row, value, usize::MAX);
    }
    let index = Index::build(full.build().unwrap(), &Roster::new([None; 128])).unwrap();
    assert!(matches!(RosterFile::of(&index), Err(FileFault::TooLong { line: 1000..=2000 })));
}
