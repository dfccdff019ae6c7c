//! The reader: takes one line at a time and rebuilds the packet in the lent buffer.

use crate::base64;
use crate::crc;
use crate::refusal::Refusal;

/// The longest line, with marker and 0A.
pub const LINE: usize = 127;
/// The marker of an initial frame.
pub const INITIAL: [u8; 2] = [0x06, 0x09];
/// The marker of a partial frame.
pub const PARTIAL: [u8; 2] = [0x04, 0x14];

/// What a line that was not refused brought.
#[derive(Clone, Copy, Debug, PartialEq, Eq)]
pub enum Taken {
    More,
    Complete(usize),
}

/// An unfinished packet: its total, the body and CRC bytes come, and the first CRC byte where only one is missing.
#[derive(Clone, Copy)]
struct Unfinished {
    total: usize,
    come: usize,
    first: u8,
}

/// The unfinished packet of a record, or nothing where it is idle or outside its bounds.
fn unfinished(record: &[u32; 4]) -> Option<Unfinished> {
    let [open, total, come, first] = *record;
    if open == 0 || !(10..=65_535).contains(&total) || come >= total || first > 255 {
        return None;
    }
    Some(Unfinished { total: total as usize, come: come as usize, first: first as u8 })
}

/// Where a line's text begins.
const TEXT: usize = 2;

/// The marker and the text of a line, or refusal 2 or 3.
fn parts(line: &[u8]) -> Result<([u8; 2], &[u8]), Refusal> {
    if line.len() > LINE {
        return Err(Refusal::LineTooLong);
    }
    if line.len() < 3 || line[line.len() - 1] != 0x0A {
        return Err(Refusal::NotALine);
    }
    let marker = [line[0], line[1]];
    if marker != INITIAL && marker != PARTIAL {
        return Err(Refusal::NotALine);
    }
    Ok((marker, &line[TEXT..line.len() - 1]))
}

/// The packet that a frame goes on with or begins, and the frame's body and CRC bytes; or refusal 5 or 6.
fn begin<'a>(record: &[u32; 4], marker: [u8; 2], raw: &'a [u8]) -> Result<(Unfinished, &'a [u8]), Refusal> {
    if marker == PARTIAL {
        let unfinished = unfinished(record).ok_or(Refusal::NoPacketOpen)?;
        return Ok((unfinished, raw));
    }
    if raw.len() < 2 {
        return Err(Refusal::BadTotal);
    }
    let total = u16::from_be_bytes([raw[0], raw[1]]) as usize;
    if total < 10 {
        return Err(Refusal::BadTotal);
    }
    Ok((Unfinished { total, come: 0, first: 0 }, &raw[2..]))
}

/// Puts a frame's bytes to the packet, whose next state it gives; or refusal 7, 8 or 9.
fn add(open: Unfinished, bytes: &[u8], packet: &mut [u8]) -> Result<(Taken, Option<Unfinished>), Refusal> {
    let body = open.total - 2;
    if body > packet.len() {
        return Err(Refusal::BodyTooLong);
    }
    let come = open.come + bytes.len();
    if come > open.total {
        return Err(Refusal::TooManyBytes);
    }
    let from = open.come.min(body);
    let to = come.min(body);
    let (body_bytes, crc_bytes) = bytes.split_at(to - from);
    if come == open.total {
        let came = match crc_bytes {
            [high, low] => u16::from_be_bytes([*high, *low]),
            [low] => u16::from_be_bytes([open.first, *low]),
            _ => unreachable!("a frame that completes a packet brings its last CRC byte"),
        };
        if came != crc::extend(crc::crc16(&packet[..from]), body_bytes) {
            return Err(Refusal::CrcDiffers);
        }
    }
    packet[from..to].copy_from_slice(body_bytes);
    if come == open.total {
        return Ok((Taken::Complete(body), None));
    }
    let first = if come == open.total - 1 { crc_bytes[0] } else { 0 };
    Ok((Taken::More, Some(Unfinished { total: open.total, come, first })))
}

/// Takes one line: `Complete` with the body's length where it completes a packet, else `More`; or refuses 2 to 9.
pub fn take_line(record: &mut [u32; 4], line: &[u8], packet: &mut [u8]) -> Result<Taken, Refusal> {
    let (marker, text) = parts(line)?;
    let raw = match base64::decode(text) {
        Some(raw) => raw,
        None => {
            *record = [0; 4];
            return Err(Refusal::BadText { place: TEXT + base64::fault(text) });
        }
    };
    let answer = begin(record, marker, &raw).and_then(|(open, bytes)| add(open, bytes, packet));
    match answer {
        Ok((taken, next)) => {
            *record = match next {
                Some(open) => [1, open.total as u32, open.come as u32, open.first as u32],
                None => [0; 4],
            };
            Ok(taken)
        }
        Err(Refusal::NoPacketOpen) => Err(Refusal::NoPacketOpen),
        Err(refusal) => {
            *record = [0; 4];
            Err(refusal)
        }
    }
}
