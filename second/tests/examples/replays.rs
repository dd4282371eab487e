//! The replay file: records, lines, and where a bad record ends it (01, Replay file).

use super::helpers::{replayed, request};
use second::calls::number::{ADVANCE, CREATE_THREAD, START_TIMER};
use second::replay::{decode, encode, replay};
use second::table::Table;
use std::io::{self, BufReader, Read, Write};

/// Advances by 1, as many as asked for.
fn ticking(records: usize) -> Vec<u8> {
    encode(&request(ADVANCE, 0, &[1])).repeat(records)
}

#[test]
fn a_record_is_laid_out_low_byte_first() {
    let record = encode(&request(
        START_TIMER,
        7,
        &[0x0403_0201, 0x0807_0605, 0x0C0B_0A09, 0x100F_0E0D],
    ));
    assert_eq!(
        record,
        [0xAC, 0xDC, 19, 7, 1, 2, 3, 4, 5, 6, 7, 8, 9, 10, 11, 12, 13, 14, 15, 16]
    );
    let back = decode(&record).expect("a good record");
    assert_eq!(
        back,
        request(19, 7, &[0x0403_0201, 0x0807_0605, 0x0C0B_0A09, 0x100F_0E0D])
    );
}

#[test]
fn an_empty_file_prints_nothing() {
    assert_eq!(replayed(&[]), (String::new(), Table::fresh()));
}

#[test]
fn a_short_last_record_is_bad_at_its_first_byte() {
    for good in [0, 1, 2] {
        for short in 1..20 {
            let mut file = ticking(good);
            file.extend_from_slice(&ticking(1)[..short]);
            let (lines, table) = replayed(&file);
            let expected: String = (1..=good).map(|clock| format!("0 255 {} 0\n", clock)).collect();
            assert_eq!(lines, format!("{}bad record at {}\n", expected, 20 * good));
            assert_eq!(table.clock as usize, good);
        }
    }
}

#[test]
fn a_wrong_mark_is_bad_and_nothing_after_it_counts() {
    for mark in [[0xDC, 0xAC], [0xAC, 0xDD], [0xAD, 0xDC], [0, 0]] {
        let mut file = ticking(5);
        file[40..42].copy_from_slice(&mark);
        let (lines, table) = replayed(&file);
        assert_eq!(lines, "0 255 1 0\n0 255 2 0\nbad record at 40\n");
        assert_eq!(table.clock, 2);
    }
    let mut file = ticking(1);
    file[0] = 0;
    assert_eq!(replayed(&file).0, "bad record at 0\n");
    file.truncate(3);
    assert_eq!(replayed(&file).0, "bad record at 0\n");
}

/// A byte too many shifts nothing before it and is a short record after it.
#[test]
fn one_byte_after_the_last_record_is_a_short_record() {
    let mut file = ticking(2);
    file.push(0xAC);
    assert_eq!(replayed(&file).0, "0 255 1 0\n0 255 2 0\nbad record at 40\n");
}

#[test]
fn bad_numbers_are_refusals_and_not_bad_records() {
    let mut file = Vec::new();
    for (call, id, a) in [
        (0, 0, 0),
        (255, 255, 9),
        (CREATE_THREAD, 255, 0),
        (CREATE_THREAD, 0, 8),
        (ADVANCE, 1, 1),
    ] {
        file.extend_from_slice(&encode(&request(call, id, &[a])));
    }
    file.extend_from_slice(&ticking(1));
    let (lines, table) = replayed(&file);
    assert_eq!(
        lines,
        "2 255 0 0\n2 255 0 0\n3 255 0 0\n4 255 0 0\n4 255 0 0\n0 255 1 0\n"
    );
    assert_eq!(
        table,
        Table {
            clock: 1,
            ..Table::fresh()
        }
    );
}

#[test]
fn wake_ups_are_the_fourth_number() {
    let mut file = encode(&request(START_TIMER, 0, &[3, 1])).to_vec();
    file.extend_from_slice(&encode(&request(ADVANCE, 0, &[10])));
    assert_eq!(replayed(&file).0, "0 255 0 0\n0 255 10 3\n");
}

/// A reader that hands out few bytes at a time and fails when it is asked beyond a given place.
struct Guarded<'a> {
    bytes: &'a [u8],
}

impl Read for Guarded<'_> {
    fn read(&mut self, into: &mut [u8]) -> io::Result<usize> {
        if self.bytes.is_empty() {
            return Err(io::Error::new(io::ErrorKind::Other, "read beyond the bad record"));
        }
        let length = into.len().min(self.bytes.len()).min(7);
        into[..length].copy_from_slice(&self.bytes[..length]);
        self.bytes = &self.bytes[length..];
        Ok(length)
    }
}

#[test]
fn nothing_is_read_after_a_bad_record() {
    let mut file = ticking(3);
    file[20] = 0;
    let mut output = Vec::new();
    let mut input = BufReader::with_capacity(1, Guarded { bytes: &file[..40] });
    replay(&mut input, &mut output).expect("the third record isn't asked for");
    assert_eq!(output, b"0 255 1 0\nbad record at 20\n");
}

#[test]
fn failures_of_reading_and_writing_are_handed_on() {
    let file = ticking(1);
    let mut input = BufReader::new(Guarded { bytes: &file });
    assert!(replay(&mut input, &mut io::sink()).is_err());

    struct Closed;
    impl Write for Closed {
        fn write(&mut self, _: &[u8]) -> io::Result<usize> {
            Err(io::ErrorKind::BrokenPipe.into())
        }
        fn flush(&mut self) -> io::Result<()> {
            Ok(())
        }
    }
    let error = replay(&mut file.as_slice(), &mut Closed).expect_err("the pipe is closed");
    assert_eq!(error.kind(), io::ErrorKind::BrokenPipe);
}
