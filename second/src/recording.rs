//! Recordings of the line: a free preface, records, and a trailer that points back to the first of them.

use crate::refusal::Refusal;
use std::ops::Range;

/// The trailer's bytes: the distance back to the first record, then the number of records.
pub const TRAILER: usize = 8;
/// What stands in a record before its line: a byte and the line's length.
pub const HEAD: usize = 3;

/// Which way a line went.
#[derive(Clone, Copy, Debug, PartialEq, Eq)]
#[repr(u8)]
pub enum Way {
    ToController = 0x3E,
    FromController = 0x3C,
}

/// A record: which way its line went, and where the line stands in the file.
#[derive(Clone, Debug, PartialEq, Eq)]
pub struct Record {
    pub way: Way,
    pub line: Range<usize>,
}

/// Splits a file before its trailer, or refuses 12 where it has none.
fn split(file: &[u8]) -> Result<(&[u8], &[u8; TRAILER]), Refusal> {
    let at = file.len().checked_sub(TRAILER).ok_or(Refusal::CannotSend)?;
    let (before, trailer) = file.split_at(at);
    Ok((before, trailer.try_into().expect("the trailer's bytes")))
}

/// The record at a place of the bytes before a trailer, if there is one.
fn record_at(before: &[u8], at: usize) -> Option<Record> {
    let bytes = before.get(at..)?;
    let way = match bytes.first()? {
        0x3E => Way::ToController,
        0x3C => Way::FromController,
        _ => return None,
    };
    let length = u16::from_be_bytes([*bytes.get(1)?, *bytes.get(2)?]) as usize;
    let line = at + HEAD..at + HEAD + length;
    before.get(line.clone())?;
    Some(Record { way, line })
}

/// The record at a place of a file, or none where its trailer begins there; or refuses 12.
pub fn next(file: &[u8], at: usize) -> Result<Option<Record>, Refusal> {
    let (before, _) = split(file)?;
    if at == before.len() {
        return Ok(None);
    }
    record_at(before, at).map(Some).ok_or(Refusal::CannotSend)
}

/// The place of a recording's first record, and all its records; or refuses 12 where the file is no recording.
pub fn read(file: &[u8]) -> Result<(usize, Vec<Record>), Refusal> {
    let (before, trailer) = split(file)?;
    let [distance, number] = [0, 4].map(|at| u32::from_be_bytes(trailer[at..at + 4].try_into().unwrap()));
    let first = before.len().checked_sub(distance as usize).ok_or(Refusal::CannotSend)?;
    let mut records = Vec::new();
    let mut at = first;
    while let Some(record) = next(file, at)? {
        at = record.line.end;
        records.push(record);
    }
    if records.len() != number as usize {
        return Err(Refusal::CannotSend);
    }
    Ok((first, records))
}
