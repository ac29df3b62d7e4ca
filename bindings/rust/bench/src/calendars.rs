//! A driver's calendar, written and read. The original has none.
use crate::measure::times;
use crate::{alone, boards, keep, Board};
use std::hint::black_box;
use turepawon::{layout, raw};

/// The first driver's calendar: how many bytes it has.
pub fn write(board: &Board, out: &mut [u8]) -> usize {
    let (records, members, mut written) = (black_box(&board.records), &board.members, 0);
    assert_eq!(raw::driver_calendar(board.packed.lent(), records, members, 0, b"20260214T081500Z", out, &mut written), 0);
    written
}

/// The rows and days of a calendar: how many there are.
pub fn read(bytes: &[u8], rows: &mut [usize], days: &mut [usize]) -> usize {
    let mut count = 0;
    assert_eq!(raw::read_calendar(black_box(bytes), rows, days, &mut count), 0);
    count
}

/// Reading is lent no tables, and validates none.
pub fn calendar(duties: usize) {
    let board = Board::new(boards::dated(duties));
    let (mut out, mut again) = (vec![0; layout::CALENDAR_ROOM], vec![0; layout::CALENDAR_ROOM]);
    let bytes = write(&board, &mut out);
    let (mut rows, mut days) = ([0; 128], [0; 128]);
    assert_eq!(read(&out[..bytes], &mut rows, &mut days), duties);
    let mut writing = || keep(write(&board, &mut again));
    let [writing, reading, validation] =
        times([&mut writing, &mut || keep(read(&out[..bytes], &mut rows, &mut days)), &mut || board.admit()]);
    let size = format!("{duties} of 128 rows: {bytes} bytes");
    alone(&format!("calendar written, {size}"), writing, Some(writing.less(validation)));
    alone(&format!("calendar read, {size}"), reading, None);
}
