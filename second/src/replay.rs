//! The replay file and the program over it (01, Replay file): records of 20 bytes in, a line per record out.

use crate::calls;
use crate::table::{Request, Table};
use std::io::{self, BufRead, Read, Write};

pub const RECORD: usize = 20;

pub const MARK: [u8; 2] = [0xAC, 0xDC];

/// A record of a request. Call and id are single bytes in a record, so greater ones can't be written.
pub fn encode(request: &Request) -> [u8; RECORD] {
    let mut record = [0; RECORD];
    record[0..2].copy_from_slice(&MARK);
    record[2] = u8::try_from(request.call).expect("the call of a record is a byte");
    record[3] = u8::try_from(request.id).expect("the id of a record is a byte");
    record[4..8].copy_from_slice(&request.a.to_le_bytes());
    record[8..12].copy_from_slice(&request.b.to_le_bytes());
    record[12..16].copy_from_slice(&request.c.to_le_bytes());
    record[16..20].copy_from_slice(&request.d.to_le_bytes());
    record
}

/// The request in a record; None for a wrong mark or a wrong length. Numbers are never a fault here: refusing them
/// is the kernel's matter.
pub fn decode(record: &[u8]) -> Option<Request> {
    if record.len() != RECORD || record[0..2] != MARK {
        return None;
    }
    let number = |at: usize| u32::from_le_bytes([record[at], record[at + 1], record[at + 2], record[at + 3]]);
    Some(Request {
        call: u32::from(record[2]),
        id: u32::from(record[3]),
        a: number(4),
        b: number(8),
        c: number(12),
        d: number(16),
    })
}

/// Replays a file from a fresh table and gives the table after the last line.
pub fn replay(input: &mut dyn BufRead, output: &mut dyn Write) -> io::Result<Table> {
    let mut table = Table::fresh();
    let mut offset: u64 = 0;
    loop {
        let record = next_record(input)?;
        if record.is_empty() {
            return Ok(table);
        }
        let request = match decode(&record) {
            Some(request) => request,
            None => {
                writeln!(output, "bad record at {}", offset)?;
                return Ok(table);
            }
        };
        let report = calls::call(&mut table, &request);
        writeln!(
            output,
            "{} {} {} {}",
            report.answer, report.chosen, report.clock, report.wake_ups
        )?;
        offset += RECORD as u64;
    }
}

/// The next 20 bytes, or as many as are left; none at the end.
fn next_record(input: &mut dyn BufRead) -> io::Result<Vec<u8>> {
    let mut record = Vec::with_capacity(RECORD);
    input.take(RECORD as u64).read_to_end(&mut record)?;
    Ok(record)
}
